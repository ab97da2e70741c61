// Hard disks with periodic boundaries, event by event, in doubles: the compressibility factor Z of a bulk fluid.
//
// It shares no line, no unit and no boundary with the program, so it is what its pressure in a walled box is compared
// with where no formula holds. `theory.py` keeps what it found. One thread; about a million collisions a second.
//
//     g++ -O3 -march=native -o periodic periodic.cpp
//     ./periodic PHI COLUMNS ROWS SEED REST TIME BLOCKS
//
// Disks have the diameter 1, the mass 1 and the temperature 1, so times are in sigma/v as everywhere. They begin on a
// hexagonal lattice of COLUMNS by ROWS (an even number) and move for the time REST before anything is measured. Each of
// BLOCKS blocks of the TIME that follows is a line: phi, disks, seed, the block's time, its collisions, its Z.
#include <cmath>
#include <cstdio>
#include <cstdlib>
#include <limits>
#include <random>
#include <vector>

namespace {

const double never = std::numeric_limits<double>::infinity();

struct Disk {
    double x, y, vx, vy;
    double time;           // when it was at x and y
    double collides;       // its earliest collision, as far as it was looked for
    double crosses;        // when it leaves its cell
    int partner;           // of that collision
    long partners_count;   // the partner's count when that was found: another means that it has collided since
    long count;            // of its collisions
    int column, row;       // its cell
    int previous, next;    // the others of its cell, or -1
};

struct Box {
    double width, height;
    int columns, rows;     // of cells, which are at least as wide as a disk
    double cell_width, cell_height;
    std::vector<Disk> disks;
    std::vector<int> first;        // of each cell
    std::vector<double> earliest;  // a tournament: node k holds the earlier of nodes 2k and 2k + 1
    int leaves;
    double now = 0;
    double virial = 0;             // the sum of r . dv over collisions
    long collisions = 0;

    int cell(int column, int row) const { return row * columns + column; }

    double across(double x) const { return x > width / 2 ? x - width : x < -width / 2 ? x + width : x; }

    double along(double y) const { return y > height / 2 ? y - height : y < -height / 2 ? y + height : y; }

    void enter(int number) {
        Disk &disk = disks[number];
        int &head = first[cell(disk.column, disk.row)];
        disk.previous = -1;
        disk.next = head;
        if (head >= 0) disks[head].previous = number;
        head = number;
    }

    void leave(int number) {
        const Disk &disk = disks[number];
        if (disk.previous >= 0) disks[disk.previous].next = disk.next;
        else first[cell(disk.column, disk.row)] = disk.next;
        if (disk.next >= 0) disks[disk.next].previous = disk.previous;
    }

    void schedule(int number) {
        int node = leaves + number;
        earliest[node] = std::fmin(disks[number].collides, disks[number].crosses);
        for (node /= 2; node >= 1; node /= 2) earliest[node] = std::fmin(earliest[2 * node], earliest[2 * node + 1]);
    }

    int soonest() const {
        int node = 1;
        while (node < leaves) node = earliest[2 * node] <= earliest[2 * node + 1] ? 2 * node : 2 * node + 1;
        return node - leaves;
    }

    // Moves a disk to where it is now.
    void move(Disk &disk) const {
        disk.x += disk.vx * (now - disk.time);
        disk.y += disk.vy * (now - disk.time);
        disk.time = now;
    }

    void find_crossing(Disk &disk) const {
        double side = (disk.vx > 0 ? disk.column + 1 : disk.column) * cell_width - disk.x;
        double end = (disk.vy > 0 ? disk.row + 1 : disk.row) * cell_height - disk.y;
        double times[] = {disk.vx == 0 ? never : side / disk.vx, disk.vy == 0 ? never : end / disk.vy};
        disk.crosses = now + std::fmax(0, std::fmin(times[0], times[1]));
    }

    // How long it is until two disks touch, from now on; the first one is where it is now.
    double contact(const Disk &one, const Disk &other) const {
        double passed = now - other.time;
        double x = across(one.x - other.x - other.vx * passed), y = along(one.y - other.y - other.vy * passed);
        double vx = one.vx - other.vx, vy = one.vy - other.vy;
        double nearing = -(x * vx + y * vy);
        if (nearing <= 0) return never;
        double speed = vx * vx + vy * vy, gap = x * x + y * y - 1;
        double root = nearing * nearing - speed * gap;
        if (root < 0) return never;
        return std::fmax(0, gap / (nearing + std::sqrt(root)));
    }

    void look_into(int number, int column, int row) {
        Disk &disk = disks[number];
        column = (column + columns) % columns;
        row = (row + rows) % rows;
        for (int other = first[cell(column, row)]; other >= 0; other = disks[other].next) {
            if (other == number) continue;
            double when = now + contact(disk, disks[other]);
            if (when < disk.collides) {
                disk.collides = when;
                disk.partner = other;
                disk.partners_count = disks[other].count;
            }
        }
    }

    // Finds the next event of a disk that is where it is now.
    void predict(int number) {
        Disk &disk = disks[number];
        disk.collides = never;
        for (int row = -1; row <= 1; row++)
            for (int column = -1; column <= 1; column++) look_into(number, disk.column + column, disk.row + row);
        find_crossing(disk);
        schedule(number);
    }

    // A disk goes into the next cell, and looks into the three cells that become its neighbours.
    void cross(int number) {
        Disk &disk = disks[number];
        move(disk);
        leave(number);
        double side = std::fabs((disk.vx > 0 ? disk.column + 1 : disk.column) * cell_width - disk.x) / std::fabs(disk.vx);
        double end = std::fabs((disk.vy > 0 ? disk.row + 1 : disk.row) * cell_height - disk.y) / std::fabs(disk.vy);
        bool is_sideways = !(side > end);
        int step = (is_sideways ? disk.vx : disk.vy) > 0 ? 1 : -1;
        if (is_sideways) {
            disk.column += step;
            disk.x = (step > 0 ? disk.column : disk.column + 1) * cell_width;
            if (disk.column == columns) disk.column = 0, disk.x = 0;
            if (disk.column < 0) disk.column = columns - 1, disk.x = width;
        } else {
            disk.row += step;
            disk.y = (step > 0 ? disk.row : disk.row + 1) * cell_height;
            if (disk.row == rows) disk.row = 0, disk.y = 0;
            if (disk.row < 0) disk.row = rows - 1, disk.y = height;
        }
        enter(number);
        for (int place = -1; place <= 1; place++) {
            if (is_sideways) look_into(number, disk.column + step, disk.row + place);
            else look_into(number, disk.column + place, disk.row + step);
        }
        find_crossing(disk);
        schedule(number);
    }

    void collide(int number) {
        Disk &one = disks[number];
        move(one);
        Disk &other = disks[one.partner];
        if (other.count != one.partners_count) return predict(number);
        move(other);
        double x = across(one.x - other.x), y = along(one.y - other.y);
        double length = std::sqrt(x * x + y * y);
        x /= length, y /= length;
        double nearing = x * (one.vx - other.vx) + y * (one.vy - other.vy);
        one.vx -= nearing * x, one.vy -= nearing * y;
        other.vx += nearing * x, other.vy += nearing * y;
        one.count++, other.count++;
        virial -= nearing;
        collisions++;
        int partner = one.partner;
        predict(number);
        predict(partner);
    }

    void run(double until) {
        while (earliest[1] < until) {
            now = earliest[1];
            int number = soonest();
            if (disks[number].collides <= disks[number].crosses) collide(number);
            else cross(number);
        }
        now = until;
    }

    double kinetic() const {
        double sum = 0;
        for (const Disk &disk : disks) sum += (disk.vx * disk.vx + disk.vy * disk.vy) / 2;
        return sum;
    }
};

// Disks on a hexagonal lattice, with velocities of Maxwell that sum to nothing and have the temperature 1.
Box lattice(double phi, int columns, int rows, unsigned seed) {
    Box box;
    double between = std::sqrt(M_PI / (2 * std::sqrt(3.0) * phi));
    int count = columns * rows;
    box.width = columns * between, box.height = rows * between * std::sqrt(3.0) / 2;
    box.columns = int(box.width), box.rows = int(box.height);
    box.cell_width = box.width / box.columns, box.cell_height = box.height / box.rows;
    box.first.assign(box.columns * box.rows, -1);
    for (box.leaves = 1; box.leaves < count;) box.leaves *= 2;
    box.earliest.assign(2 * box.leaves, never);
    std::mt19937_64 source(seed);
    std::normal_distribution<double> normal;
    double sums[] = {0, 0};
    for (int number = 0; number < count; number++) {
        Disk disk = {};
        disk.x = (number % columns + (number / columns % 2 ? 0.75 : 0.25)) * between;
        disk.y = (number / columns + 0.5) * between * std::sqrt(3.0) / 2;
        disk.vx = normal(source), disk.vy = normal(source);
        disk.column = std::min(int(disk.x / box.cell_width), box.columns - 1);
        disk.row = std::min(int(disk.y / box.cell_height), box.rows - 1);
        sums[0] += disk.vx, sums[1] += disk.vy;
        box.disks.push_back(disk);
        box.enter(number);
    }
    for (Disk &disk : box.disks) disk.vx -= sums[0] / count, disk.vy -= sums[1] / count;
    double scale = std::sqrt(count / box.kinetic());
    for (Disk &disk : box.disks) disk.vx *= scale, disk.vy *= scale;
    for (int number = 0; number < count; number++) box.predict(number);
    return box;
}

}  // namespace

int main(int count, char **words) {
    if (count != 8) return std::fprintf(stderr, "periodic PHI COLUMNS ROWS SEED REST TIME BLOCKS\n"), 2;
    double phi = std::atof(words[1]), rest = std::atof(words[5]), time = std::atof(words[6]);
    int seed = std::atoi(words[4]), blocks = std::atoi(words[7]);
    Box box = lattice(phi, std::atoi(words[2]), std::atoi(words[3]), seed);
    box.run(rest);
    double disks = double(box.disks.size());
    for (int block = 1; block <= blocks; block++) {
        double virial = box.virial;
        long collisions = box.collisions;
        box.run(rest + time * block / blocks);
        // As all velocities sum to nothing, those of two disks are N / (N - 1) as far apart as of independent ones.
        double factor = 1 + (box.virial - virial) * (disks - 1) / disks / (2 * box.kinetic() * time / blocks);
        std::printf("%.10g,%d,%d,%.10g,%ld,%.8f\n", phi, int(disks), seed, time / blocks, box.collisions - collisions, factor);
        std::fflush(stdout);
    }
}

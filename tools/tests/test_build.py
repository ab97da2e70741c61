#!/usr/bin/env python3
"""Tests of the script hard_disks at the top, and of tools/lanes, in copies of them, with stand-ins for the prover that build in
no time.

    python3 tools/tests/test_build.py"""
import os
import pty
import shutil
import signal
import subprocess
import tempfile
import time
import unittest

from places import TOP

# Says what the prover says of two crates, and makes a program that tells its words, what it reads and a status.
PROVER = r"""#!/bin/bash
[[ -e ../../fails ]] && { echo 'rt: base NOT PROVED'; exit 1; }
echo 'rt: chose --jobs 2 for base'; echo 'fn base::one: proved'; echo 'rt: chose --jobs 4 for hard_disks_program'
cat >/dev/null
echo built >>../../builds
[[ -e ../../hangs ]] && { echo $$ >../../prover; sleep 300 & echo $! >../../child; wait; }
[[ -e ../../slow ]] && sleep 1
cat >out/hard_disks_program <<'P'
#!/bin/bash
printf '<%s>' "$@"; cat; exit 7
P
chmod +x out/hard_disks_program
"""
# Builds a library, if those that it stands on are there, and notes how many do so at once; and the program as above.
LANES_PROVER = r"""#!/bin/bash
top=@TOP@; name="${PWD##*/}"
[[ $1 == run ]] && { echo 'rt: chose --jobs 4 for hard_disks_program'; echo "run: $(ls -d ../*/out/rlib | wc -l)" >>"$top/builds"; printf '#!/bin/bash\n' >out/hard_disks_program; chmod +x out/hard_disks_program; exit; }
for it in $(sed -n "s/^$name://p" ../../crates.txt); do [[ -e ../$it/out/rlib/stamp ]] || exit 1; done
[[ -e $top/fails-$name ]] && exit 1
mkdir "$top/running/$name"; ls "$top/running" | wc -l >>"$top/at_once"; echo "$name" >>"$top/builds"
while [[ -e $top/hangs-$name ]]; do echo kept >out/kept; sleep 0.05; done
sleep 0.2; rmdir "$top/running/$name"
mkdir -p out/rlib; echo "$name" >out/rlib/stamp
"""
# Crates that stand on one another, and one that stands apart.
CRATES = "low:\nleft: low\nright: low\napart:\nhigh: left right\nhard_disks_program: high apart\n"
LIBRARIES = ["low", "left", "right", "apart", "high"]
WORDS = ["--mode", "run", "--format=summary", "--number", "+0018446744073709551615", "--"]
# Words that have no settings, and what is said of them.
BAD = [
    (["--mdoe", "run"], "--mdoe"),
    (["--mode", "Run"], "--mode Run"),
    (["--turns=65537"], "--turns 65537"),
    (["--workers", "00"], "--workers 00"),
    (["--number", "18446744073709551616"], "--number 18446744073709551616"),
    (["--at"], "--at lacks its value"),
    (["--at", "1", "--at=1"], "--at stands twice"),
    (["--mode", "run", "a b", "", "*", "two\nlines", "-é"], "a b"),
    (["--@", "run"], "--@"),
]


def write(path, text):
    os.makedirs(os.path.dirname(path), exist_ok=True)
    with open(path, "w", encoding="utf-8") as file:
        file.write(text)
    os.chmod(path, 0o755)


def read(path):
    """The text of a file, empty if there is none."""
    try:
        with open(path, encoding="utf-8") as file:
            return file.read()
    except OSError:
        return ""


class Script(unittest.TestCase):
    def setUp(self):
        room = tempfile.TemporaryDirectory()
        self.addCleanup(room.cleanup)
        self.top = room.name
        shutil.copy(os.path.join(TOP, "hard_disks"), self.top)
        write(f"{self.top}/crates.txt", "base:\nhard_disks_program: base\n")
        write(f"{self.top}/crates/hard_disks_program/src/main.rt", "fn main() {}\n")
        write(f"{self.top}/scenes/pair.toml", "width = 40\n")
        write(f"{self.top}/bin/rt", PROVER)

    def environment(self):
        return {**os.environ, "PATH": f"{self.top}/bin:{os.environ['PATH']}"}

    def run_script(self, words=WORDS, by=()):
        return subprocess.run([*by, f"{self.top}/hard_disks", *words], env=self.environment(), input=b"a scene", capture_output=True)

    def builds(self):
        """How often something was built."""
        return len(read(f"{self.top}/builds").splitlines())

    def assert_told(self, ran, said):
        """One line, and the status of a script that has no program to run."""
        self.assertEqual((ran.returncode, ran.stdout, ran.stderr.count(b"\n")), (1, b"", 1), ran.stderr)
        self.assertIn(said, ran.stderr.decode())

    def assert_ran(self, ran):
        self.assertEqual(ran.stdout.decode(), "".join(f"<{it}>" for it in WORDS) + "a scene")
        self.assertEqual(ran.returncode, 7)

    def test_it_tells_what_is_proved_and_passes_words_on(self):
        ran = self.run_script()
        self.assert_ran(ran)
        said = ran.stderr.decode()
        self.assertIn("minutes on four processors", said)
        self.assertLess(said.index("proving base"), said.index("proving hard_disks_program"))

    def test_what_is_built_is_run_without_a_word(self):
        self.run_script()
        ran = self.run_script()
        self.assert_ran(ran)
        self.assertEqual(ran.stderr, b"")

    def test_help_and_version_tell_the_options_and_build_nothing(self):
        for name in ("README.md", "tools/pyproject.toml"):
            os.makedirs(os.path.dirname(f"{self.top}/{name}"), exist_ok=True)
            shutil.copy(os.path.join(TOP, name), f"{self.top}/{name}")
        for word in ("--help", "-h"):
            ran = self.run_script([word])
            self.assertEqual((ran.returncode, ran.stderr), (0, b""))
            for told in ("<SCENE", "  --mode  ", "  --burst  ", "  9  ", "explain scene.toml"):
                self.assertIn(told, ran.stdout.decode())
            for mark in ("## ", "`", "](", "|---"):
                self.assertNotIn(mark, ran.stdout.decode())
        for word in ("--version", "-V"):
            self.assertRegex(self.run_script([word]).stdout.decode(), r"^hard_disks \d+\.\d+\.\d+\ncommit \w+\n")
        self.assertFalse(os.path.exists(f"{self.top}/crates/hard_disks_program/out"))

    def test_bad_words_are_named_before_anything_is_built(self):
        for words, told in BAD:
            with self.subTest(words):
                ran = self.run_script(words)
                self.assertEqual((ran.returncode, ran.stdout), (2, b"bad words\n"))
                self.assertEqual(ran.stderr.decode(), f"hard_disks: bad words: {told}\n")
        ran = self.run_script([f"{self.top}/scenes/pair.toml"])
        self.assertEqual((ran.returncode, ran.stdout), (2, b"bad words\n"))
        self.assertIn("a scene comes by <FILE", ran.stderr.decode())
        self.assertEqual(self.builds(), 0)

    def test_what_is_built_gets_all_words(self):
        self.run_script()
        words = BAD[7][0]
        ran = self.run_script(words)
        self.assertEqual(ran.stdout.decode(), "".join(f"<{it}>" for it in words) + "a scene")
        self.assertEqual(ran.stderr.decode(), "hard_disks: bad words: a b\n")

    def test_a_closed_standard_error_changes_nothing(self):
        ran = subprocess.run(f'"{self.top}/hard_disks" 2>&-', shell=True, env=self.environment(), input=b"a scene", stdout=subprocess.PIPE)
        self.assertEqual((ran.returncode, ran.stdout), (7, b"<>a scene"))

    def test_it_has_to_be_a_file_with_checksums(self):
        with open(f"{self.top}/hard_disks", encoding="utf-8") as script:
            piped = subprocess.run(["bash", "-s"], stdin=script, cwd=self.top, env=self.environment(), capture_output=True)
        self.assert_told(piped, "run as a file")
        for name in ("bash", "dirname", "readlink"):
            os.symlink(shutil.which(name), f"{self.top}/bin/{name}")
        bare = subprocess.run([f"{self.top}/hard_disks"], env={"PATH": f"{self.top}/bin"}, input=b"", capture_output=True)
        self.assert_told(bare, "no command sha256sum")

    def test_words_are_completed(self):
        completed = f'source "{TOP}/tools/completion/hard_disks.bash"; COMP_WORDS=(hard_disks %s); COMP_CWORD=%d; _hard_disks; echo "${{COMPREPLY[@]}}"'
        for words, at, told in (("--mo", 1, "--mode"), ("--mode c", 2, "check cut"), ("--format s", 2, "summary states sums"), ("--at 1", 2, "")):
            ran = subprocess.run(["bash", "-c", completed % (words, at)], capture_output=True, text=True)
            self.assertEqual((ran.stdout.strip(), ran.stderr), (told, ""))

    def test_changed_sources_are_built_anew(self):
        self.run_script()
        write(f"{self.top}/crates/hard_disks_program/src/main.rt", "fn main() { }\n")
        ran = self.run_script()
        self.assert_ran(ran)
        self.assertIn("its sources have changed", ran.stderr.decode())

    def test_a_program_that_it_did_not_build_is_built_anew(self):
        self.run_script()
        program = f"{self.top}/crates/hard_disks_program/out/hard_disks_program"
        write(program, "#!/bin/bash\necho another\n")
        ran = self.run_script()
        self.assert_ran(ran)
        self.assertIn("isn't the one that was built from these sources", ran.stderr.decode())
        self.assertEqual(self.builds(), 2)

    def test_a_program_that_the_gate_built_is_run(self):
        program = f"{self.top}/crates/hard_disks_program/out/hard_disks_program"
        write(program, "#!/bin/bash\nprintf '<%s>' \"$@\"; cat; exit 7\n")
        for wrong in ("0", "x", "-1", ""):
            self.assertEqual(self.run_script(["--built", wrong]).returncode, 1)
        for file in ("crates.txt", "crates/hard_disks_program/src/main.rt"):
            os.utime(f"{self.top}/{file}", (1, 1))
        self.assertEqual(self.run_script(["--built", "60"]).returncode, 0)
        ran = self.run_script()
        self.assert_ran(ran)
        self.assertEqual((ran.stderr, self.builds()), (b"", 0))
        # One isn't if a source was written since the gate began.
        write(f"{self.top}/crates/hard_disks_program/src/main.rt", "fn main() { }\n")
        self.assertEqual(self.run_script(["--built", "60"]).returncode, 1)
        self.assert_ran(self.run_script())
        self.assertEqual(self.builds(), 1)

    def test_a_request_to_end_ends_the_prover_too(self):
        for number in (signal.SIGTERM, signal.SIGINT, signal.SIGHUP):
            with self.subTest(number):
                write(f"{self.top}/hangs", "")
                # Where tests run in the background, signals may be ignored that are sent here.
                how = {"stderr": subprocess.DEVNULL, "preexec_fn": lambda: signal.signal(number, signal.SIG_DFL)}
                with subprocess.Popen([f"{self.top}/hard_disks"], env=self.environment(), **how) as script:
                    self.addCleanup(script.kill)
                    self.wait_for(lambda: read(f"{self.top}/child"))
                    script.send_signal(number)
                    self.assertEqual(script.wait(20), -number)
                for name in ("prover", "child"):
                    self.wait_for(lambda: not self.is_alive(int(read(f"{self.top}/{name}"))))
                    os.remove(f"{self.top}/{name}")

    def wait_for(self, is_so):
        end = time.monotonic() + 20
        while not is_so():
            self.assertLess(time.monotonic(), end, "it never came")
            time.sleep(0.02)

    @staticmethod
    def is_alive(pid):
        """Whether a process runs; one that has ended, and that nobody waited for, doesn't."""
        return read(f"/proc/{pid}/stat").rpartition(")")[2].split()[:1] not in ([], ["Z"])

    def test_a_terminal_is_told_that_a_scene_is_waited_for(self):
        self.run_script()
        for words, said in [(["--mode", "run"], b"waiting for a scene"), (["--mode", "load"], b""), (["--mode=load"], b"")]:
            ours, theirs = pty.openpty()
            os.write(ours, b"\x04")
            ran = subprocess.run([f"{self.top}/hard_disks", *words], stdin=theirs, capture_output=True)
            os.close(ours)
            os.close(theirs)
            self.assertEqual((ran.returncode, said in ran.stderr, ran.stderr.count(b"\n")), (7, True, int(said != b"")))

    def test_two_at_once_build_once(self):
        write(f"{self.top}/slow", "")
        how = {"env": self.environment(), "stdin": subprocess.DEVNULL, "stdout": subprocess.PIPE, "stderr": subprocess.PIPE}
        scripts = [subprocess.Popen([f"{self.top}/hard_disks", "--at=1"], **how) for _ in range(3)]
        said = [it.communicate(timeout=60) for it in scripts]
        self.assertEqual([(it.returncode, out) for it, (out, _) in zip(scripts, said)], [(7, b"<--at=1>")] * 3)
        self.assertEqual(self.builds(), 1)
        self.assertEqual(sum(b"being built already" in error for _, error in said), 2)

    def test_another_shell_and_a_folder_that_cannot_be_written_are_told(self):
        for shell in ("dash", "sh"):
            if os.path.basename(os.path.realpath(shutil.which(shell) or "/none/bash")) != "bash":
                self.assert_told(self.run_script(by=[shell]), "no script for sh")
        write(f"{self.top}/crates/hard_disks_program/out", "no folder")
        self.assert_told(self.run_script(), "can't be written")

    def test_a_failed_proof_is_told_and_nothing_is_run(self):
        write(f"{self.top}/fails", "")
        ran = self.run_script()
        self.assertEqual((ran.returncode, ran.stdout), (1, b""))
        self.assertIn("rt: base NOT PROVED", ran.stderr.decode())


class Lanes(unittest.TestCase):
    def setUp(self):
        room = tempfile.TemporaryDirectory()
        self.addCleanup(room.cleanup)
        self.top = room.name
        shutil.copy(os.path.join(TOP, "hard_disks"), self.top)
        os.makedirs(f"{self.top}/tools")
        os.makedirs(f"{self.top}/running")
        os.makedirs(f"{self.top}/.git")
        shutil.copy(os.path.join(TOP, "tools/lanes"), f"{self.top}/tools")
        write(f"{self.top}/crates.txt", CRATES)
        for name in LIBRARIES:
            write(f"{self.top}/crates/{name}/src/lib.rt", "//! A library.\n")
            os.makedirs(f"{self.top}/crates/{name}/out")
        write(f"{self.top}/crates/hard_disks_program/src/main.rt", "fn main() {}\n")
        write(f"{self.top}/scenes/pair.toml", "width = 40\n")
        write(f"{self.top}/bin/rt", LANES_PROVER.replace("@TOP@", self.top))

    def environment(self, jobs=""):
        return {**os.environ, "PATH": f"{self.top}/bin:{os.environ['PATH']}", "RT_JOBS": jobs}

    def build(self, jobs=""):
        return subprocess.run([f"{self.top}/tools/lanes"], env=self.environment(jobs), capture_output=True, text=True)

    def built(self):
        return [name for name in LIBRARIES if read(f"{self.top}/crates/{name}/out/rlib/stamp") == f"{name}\n"]

    def most_at_once(self):
        return max(int(it) for it in read(f"{self.top}/at_once").split())

    def test_each_library_is_built_after_those_below(self):
        ran = self.build()
        self.assertEqual((ran.returncode, self.built()), (0, LIBRARIES), ran.stderr)
        self.assertEqual(ran.stdout.splitlines()[0], "lanes: 1 of 6, low")
        self.assertEqual(len(ran.stdout.splitlines()), len(LIBRARIES))
        self.assertEqual(self.most_at_once(), 2)
        self.assertEqual(os.listdir(f"{self.top}/.git"), [])
        self.assertEqual(self.build().stdout, "")

    def test_a_copy_without_git_is_built_too(self):
        os.rmdir(f"{self.top}/.git")
        self.assertEqual((self.build().returncode, self.built()), (0, LIBRARIES))
        self.assertFalse(os.path.exists(f"{self.top}/crates/hard_disks_program/out/lanes"))

    def test_one_at_once_if_asked(self):
        self.assertEqual((self.build("1").returncode, self.most_at_once()), (0, 1))

    def test_a_changed_library_is_built_anew_with_those_above(self):
        self.build()
        later = time.time() + 10
        os.utime(f"{self.top}/crates/left/src/lib.rt", (later, later))
        self.assertEqual(self.build().stdout, "lanes: 4 of 6, left\nlanes: 5 of 6, high\n")

    def test_what_was_ended_is_gone_on_with(self):
        write(f"{self.top}/hangs-left", "")
        with subprocess.Popen([f"{self.top}/tools/lanes"], env=self.environment(), stdout=subprocess.DEVNULL) as lanes:
            end = time.monotonic() + 20
            while "right" not in self.built() or not os.path.exists(f"{self.top}/running/left"):
                self.assertLess(time.monotonic(), end, "it never came")
                time.sleep(0.02)
            lanes.kill()
        # `rt ci` refuses a tree in which another crates.txt stands.
        found = [at for at, _, names in os.walk(f"{self.top}/crates") if "crates.txt" in names]
        self.assertEqual(found, [])
        # What it began goes on, and the next call waits for that.
        with subprocess.Popen([f"{self.top}/tools/lanes"], env=self.environment(), stdout=subprocess.PIPE, text=True) as lanes:
            time.sleep(0.3)
            os.remove(f"{self.top}/hangs-left")
            self.assertEqual((lanes.wait(20), self.built()), (0, LIBRARIES))
        self.assertEqual(read(f"{self.top}/crates/left/out/kept"), "kept\n")

    def test_what_stands_on_a_failed_library_is_not_begun(self):
        write(f"{self.top}/fails-left", "")
        ran = self.build()
        self.assertEqual((ran.returncode, self.built()), (1, ["low", "right", "apart"]))
        self.assertIn("lanes: left was not built", ran.stdout)

    def test_the_script_tells_how_far_it_is_and_builds_the_program(self):
        ran = subprocess.run([f"{self.top}/hard_disks"], env=self.environment(), input=b"", capture_output=True)
        self.assertEqual(ran.returncode, 0, ran.stderr)
        said = ran.stderr.decode()
        self.assertRegex(said, r"proving 1 of 6, low, after 0:\d\d\n")
        self.assertLess(said.index("proving 5 of 6, high"), said.index("proving hard_disks_program"))
        self.assertEqual(read(f"{self.top}/builds").splitlines()[-1], "run: 5")

    def test_the_script_goes_on_where_lanes_fail(self):
        write(f"{self.top}/fails-low", "")
        ran = subprocess.run([f"{self.top}/hard_disks"], env=self.environment(), input=b"", capture_output=True)
        self.assertEqual((ran.returncode, read(f"{self.top}/builds").splitlines()[-1]), (0, "run: 1"), ran.stderr)


if __name__ == "__main__":
    unittest.main()

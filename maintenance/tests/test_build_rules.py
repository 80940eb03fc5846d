"""In what order the crates of a build are proved, what is kept of an earlier one, and what is said, with a stand-in for the kit."""
import os
import shutil
import signal
import subprocess
import sys
import tempfile
import time
import unittest

ROOT = os.path.join(os.path.dirname(os.path.abspath(__file__)), "..", "..")
sys.path.insert(0, f"{ROOT}/maintenance")
import build_rules
import crate_graph

CRATES = """# a comment
low: thiserror
wide:
middle backend=rattle: low
top: middle low wide
dmixlab: top
beside: top
dmix_c staticlib: middle low
"""

# it says which kit this is; the prover notes its words and makes what -o names, and the crate that FAILS names isn't proved
RT = """#!/bin/sh
case $1 in
  version) echo kit-1 logic 7 ;;
  doc) echo "$(dirname "$(dirname "$0")")/START.md" ;;
esac
"""
RATTLE = """#!/bin/sh
echo "$*" >>"$CALLS"
name=$3
echo "$name was checked"
[ "$name" != "$FAILS" ] || exit 1
while [ "$1" != -o ]; do shift; done
made=$2
case $made in *.rlib) mkdir "$made" ;; *) echo "$name" >"$made" ;; esac
"""
LINK = """#!/bin/sh
while [ "$1" != -o ]; do shift; done
cp "$3" "$2"
"""


class BuildRules(unittest.TestCase):
    def setUp(self):
        self.room = tempfile.TemporaryDirectory()
        self.addCleanup(self.room.cleanup)
        self.at = os.path.realpath(self.room.name)
        for name in ("low", "wide", "middle", "top", "beside", "dmix_c"):
            self.write(f"repo/crates/{name}/src/lib.rt", "fn f() {}\n")
        self.write("repo/crates/dmixlab/src/main.rt", "fn main() {}\n")
        self.write("repo/crates.txt", CRATES)
        self.write("repo/README.md", "Proved with `kit-1 logic 7`.\n")
        for name in ("maintenance/build_rules.py", "maintenance/prove_crate.sh", "maintenance/crate_graph.py", "tools/machine.py", "tools/command.py"):
            os.makedirs(os.path.dirname(f"{self.at}/repo/{name}"), exist_ok=True)
            shutil.copy(f"{ROOT}/{name}", f"{self.at}/repo/{name}")
        shutil.copy(f"{ROOT}/Makefile", f"{self.at}/repo")
        for name, text in (("rt", RT), ("rattle", RATTLE), ("rattle-link", LINK)):
            self.write(f"kit/bin/{name}", text)
            os.chmod(f"{self.at}/kit/bin/{name}", 0o755)
        self.libraries = f"{self.at}/repo/{build_rules.LIBRARIES}"

    def write(self, name, text):
        os.makedirs(os.path.dirname(f"{self.at}/{name}"), exist_ok=True)
        with open(f"{self.at}/{name}", "w", encoding="utf-8") as file:
            file.write(text)

    def read(self, name):
        with open(f"{self.at}/{name}", encoding="utf-8") as file:
            return file.read()

    def start(self, *words, **variables):
        self.write("calls", "")
        variables = {"PATH": f"{self.at}/kit/bin:{os.environ['PATH']}", "CALLS": f"{self.at}/calls", "FAILS": "", **variables}
        words = ["make", "-C", f"{self.at}/repo", "--no-print-directory", *words]
        return subprocess.Popen(words, env=variables, stdout=subprocess.PIPE, stderr=subprocess.PIPE, text=True)

    def run_it(self, *words, **variables):
        """Builds, and returns what is said and the crates that were proved, each with its words."""
        ran = self.start(*words, **variables)
        ran.out, ran.said = ran.communicate()
        return ran, {it.split()[2]: it for it in self.read("calls").splitlines()}

    def test_a_line_gives_the_crates_of_the_repository_that_a_crate_uses(self):
        uses = crate_graph.uses_of(crate_graph.read_lines(f"{self.at}/repo"))
        self.assertEqual(uses["middle"], ["low"])
        self.assertEqual(crate_graph.below(uses, "dmixlab"), {"low", "wide", "middle", "top"})

    def test_each_crate_is_proved_once_and_after_those_that_it_uses(self):
        ran, calls = self.run_it("-j1")
        names = list(calls)
        self.assertEqual((ran.returncode, ran.said, sorted(names[:3]), names[3:]), (0, "", ["low", "middle", "wide"], ["top", "dmixlab"]))
        self.assertLess(names.index("low"), names.index("middle"))
        # the longest chain first
        self.assertEqual(ran.out.splitlines()[:2], ["[1/5] proving low", "[2/5] proving middle"])
        self.assertEqual(self.read("repo/build/dmixlab"), "dmixlab\n")
        self.assertEqual(sorted(self.read("repo/build/built").split()), ["dmixlab", "low", "middle", "top", "wide"])
        self.assertEqual(self.read("repo/build/logs/low.log"), "low was checked\n")

    def test_a_crate_is_proved_over_what_those_below_state(self):
        calls = self.run_it()[1]
        kit, libraries = f"{self.at}/kit", "../../crates/dmixlab/out/rlib"
        self.assertIn(f"--extern thiserror={kit}/rlibs/thiserror.rlib", calls["low"])
        self.assertIn(f"src/lib.rt --extern std={kit}/rlibs/std.rlib --extern low={libraries}/low.rlib -L", calls["middle"])
        self.assertRegex(calls["middle"], f"--statements -o {libraries}/middle.rlib --jobs [0-9]$")
        self.assertIn("--backend llvm", calls["dmixlab"])

    def test_the_static_library_is_built_over_what_the_program_uses_too(self):
        ran, calls = self.run_it("library")
        self.assertEqual((ran.returncode, list(calls), self.read("repo/build/libdmix_c.a")), (0, ["low", "middle", "dmix_c"], "dmix_c\n"))
        self.assertIn(f"--crate-type staticlib --toolchain {self.at}/kit/toolchain -o ", calls["dmix_c"])
        self.assertEqual(ran.out.splitlines()[-2:], ["[3/3] proving dmix_c", f"{self.at}/repo/build/libdmix_c.a is proved and built"])
        self.assertFalse(os.path.exists(f"{self.at}/repo/build/built"))
        self.assertEqual(sorted(self.run_it()[1]), ["dmixlab", "top", "wide"])
        self.assertEqual(list(self.run_it("library")[1]), [])

    def test_a_proof_has_the_lanes_that_no_other_one_has_and_two_on_the_longest_chain(self):
        repo = f"{self.at}/repo"
        # each of the others with its work, that of this crate is 1000
        a, b, c, most = ("000000000900-a", "000000000900-b", "000000000900-c", "000000001100-most")
        for others, lanes, jobs in (([], 4, 4), ([a], 4, 3), ([a, b], 4, 2), ([a, b, most], 4, 1), ([a, b, c], 4, 2), ([], 1, 1)):
            shutil.rmtree(f"{repo}/build", ignore_errors=True)
            for it in ("build/logs", "build/count", self.libraries, *(f"build/running/{it}" for it in others)):
                os.makedirs(os.path.join(repo, it), exist_ok=True)
            words = ["sh", "maintenance/prove_crate.sh", "low", f"{self.libraries}/low.proved", "1000", "echo"]
            subprocess.run(words, cwd=repo, env={"PATH": os.environ["PATH"], "LANES": str(lanes)}, stdout=subprocess.PIPE, check=True)
            self.assertEqual(self.read("repo/build/logs/low.log"), f"--jobs {jobs}\n")
            self.assertEqual(sorted(os.listdir(f"{repo}/build/running")), others)

    def test_what_waits_has_its_turn_by_the_work_that_waits_for_it(self):
        repo, proofs = f"{self.at}/repo", []
        for it in ("build/logs", "build/count", "build/running/000000000001-other", "build/waiting", self.libraries):
            os.makedirs(os.path.join(repo, it))
        for name, work in (("wide", "90"), ("middle", "9"), ("low", "100")):
            words = ["sh", "maintenance/prove_crate.sh", name, f"{self.libraries}/{name}.proved", work, "echo"]
            proofs.append(subprocess.Popen(words, cwd=repo, env={"PATH": os.environ["PATH"], "LANES": "1"}, stdout=subprocess.PIPE, text=True))
        while len(os.listdir(f"{repo}/build/waiting")) < 3:
            time.sleep(0.02)
        os.rmdir(f"{repo}/build/running/000000000001-other")
        self.assertEqual([it.communicate()[0] for it in proofs], ["[2/?] proving wide\n", "[3/?] proving middle\n", "[1/?] proving low\n"])

    def test_a_crate_gives_way_to_one_for_which_more_work_waits(self):
        repo = f"{self.at}/repo"
        for others, niceness in (([], 0), (["000000001001-a"], 0), (["000000002000-a"], 10), (["000000099999-a"], 19)):
            shutil.rmtree(f"{repo}/build", ignore_errors=True)
            for it in ("build/logs", "build/count", self.libraries, *(f"build/running/{it}" for it in others)):
                os.makedirs(os.path.join(repo, it), exist_ok=True)
            words = ["sh", "maintenance/prove_crate.sh", "low", f"{self.libraries}/low.proved", "1000", "sh", "-c", "nice"]
            subprocess.run(words, cwd=repo, env={"PATH": os.environ["PATH"], "LANES": "4"}, stdout=subprocess.PIPE, check=True)
            self.assertEqual(int(self.read("repo/build/logs/low.log")), min(19, niceness + os.nice(0)))

    def test_a_second_make_waits_and_finds_what_the_first_one_proved(self):
        self.write("kit/bin/rattle", RATTLE + "sleep 0.5\n")
        first = self.start()
        first.stdout.readline()
        second = self.start()
        said = [it.communicate()[0].splitlines() for it in (first, second)]
        self.assertEqual((first.returncode, second.returncode, len(said[0])), (0, 0, 5))
        self.assertEqual(said[1], [f"waiting for another make in {self.at}/repo", f"{self.at}/repo/build/dmixlab is proved and built"])

    def test_a_dry_run_names_what_is_to_be_done_and_proves_nothing(self):
        ran, calls = self.run_it("-n")
        self.assertEqual((ran.returncode, calls), (0, {}))
        self.assertIn("maintenance/prove_crate.sh low ", ran.out)

    def test_a_later_build_proves_what_changed_and_the_crates_above(self):
        self.run_it()
        self.write("repo/crates/middle/src/lib.rt", "fn g() {}\n")
        ran, calls = self.run_it()
        self.assertEqual((list(calls), ran.out.splitlines()[0]), (["middle", "top", "dmixlab"], "[1/3] proving middle"))
        self.assertEqual(list(self.run_it()[1]), [])
        os.remove(f"{self.at}/repo/build/dmixlab")
        self.assertEqual((list(self.run_it()[1]), self.read("repo/build/dmixlab")), ([], "dmixlab\n"))

    def test_a_file_that_is_gone_and_another_line_are_changes(self):
        self.write("repo/crates/top/proofs/Lib.antt", "one")
        self.run_it()
        os.remove(f"{self.at}/repo/crates/top/proofs/Lib.antt")
        self.assertEqual(list(self.run_it()[1]), ["top", "dmixlab"])
        self.write("repo/crates.txt", CRATES.replace("dmixlab: top", "dmixlab: top low"))
        self.assertEqual(list(self.run_it()[1]), ["dmixlab"])

    def test_another_kit_is_named_and_proves_anew(self):
        self.run_it()
        self.write("kit/bin/rt", RT.replace("kit-1", "kit-2"))
        ran, calls = self.run_it()
        self.assertEqual((ran.returncode, len(calls)), (0, 5))
        self.assertEqual(ran.said, "dmixlab: this is kit-2 logic 7; README.md names kit-1 logic 7. It is taken all the same\n")

    def test_a_crate_that_is_not_proved_ends_the_build_and_its_log_is_named(self):
        ran, calls = self.run_it(FAILS="middle")
        self.assertEqual(ran.returncode, 2)
        self.assertNotIn("top", calls)
        log = f"{self.at}/repo/build/logs/middle.log"
        self.assertIn(f"middle isn't proved. All that was said of it is in {log}, which has\nmiddle was checked\n", ran.said)
        self.assertFalse(os.path.exists(f"{self.at}/repo/build/built"))

    def test_what_waits_is_not_begun_after_one_is_not_proved_but_by_keep_going(self):
        self.assertEqual(list(self.run_it("-j1", FAILS="low")[1]), ["low"])
        ran, calls = self.run_it("-j1", "-k", FAILS="low")
        self.assertEqual((list(calls), ran.returncode), (["low", "wide"], 2))

    def test_a_build_that_was_stopped_goes_on_where_it_was(self):
        self.run_it(FAILS="top")
        # what was half written counts for nothing
        os.makedirs(f"{self.libraries}/top.rlib")
        ran, calls = self.run_it()
        self.assertEqual((list(calls), ran.out.splitlines()[0], ran.returncode), (["top", "dmixlab"], "[1/2] proving top", 0))

    def test_a_build_that_is_told_to_end_ends_its_proofs(self):
        self.write("kit/bin/rattle", RATTLE + 'echo $$ >"$CALLS.pid"\nexec sleep 60\n')
        started = self.start("-j1")
        started.stdout.readline()
        while not os.path.exists(f"{self.at}/calls.pid") or not self.read("calls.pid"):
            time.sleep(0.02)
        started.terminate()
        started.communicate()
        self.assertEqual(started.returncode, -signal.SIGTERM)
        with self.assertRaises(ProcessLookupError):
            for _ in range(100):
                os.kill(int(self.read("calls.pid")), 0)
                time.sleep(0.02)
        self.assertEqual([it for it in os.listdir(self.libraries) if it.endswith(".proved")], [])

    def test_a_change_during_the_build_is_newer_than_what_was_built(self):
        self.write("kit/bin/rattle", RATTLE + 'sleep 0.05; echo >>"$ROOT/crates/low/src/lib.rt"\n')
        self.run_it(ROOT=f"{self.at}/repo")
        changed = os.stat(f"{self.at}/repo/crates/low/src/lib.rt").st_mtime_ns
        self.assertLess(os.stat(f"{self.at}/repo/build/built").st_mtime_ns, changed)
        self.assertIn("low", self.run_it(ROOT=f"{self.at}/repo")[1])

    def test_a_missing_kit_is_said(self):
        self.write("kit/bin/rt", "#!/bin/sh\nexit 4\n")
        ran, calls = self.run_it()
        self.assertEqual((ran.returncode, calls), (2, {}))
        self.assertIn("`rt version` ends with status 4", ran.said)


if __name__ == "__main__":
    unittest.main()

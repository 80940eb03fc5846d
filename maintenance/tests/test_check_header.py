"""maintenance/check_header.py compares the C header with the static library's sources, and with a built archive."""
import os
import shutil
import subprocess
import sys
import tempfile
import unittest
from unittest import mock

ROOT = os.path.join(os.path.dirname(os.path.abspath(__file__)), "..", "..")
sys.path.insert(0, f"{ROOT}/maintenance")
import check_header
import command

CALLS = """/// Opens. dmix_c_nothing(alloc: Global) is a word of a comment alone.
#[unsafe(no_mangle)]
pub extern "C" fn dmix_c_open(
    alloc: Global,
    client: &mut Handle,
    params: &Params,
) -> i64
    ensures { IsOpen client.new }
{
    open(alloc, client, params)
}

#[unsafe(no_mangle)]
pub extern "C" fn dmix_c_write(alloc: Global, client: &mut Handle, samples: &[i16]) -> i64 {
    0
}
"""
STRUCTS = """#[repr(C)]
#[derive(Drop)]
pub struct Held {
    at: *mut u8,
    alloc: Global,
    pub ghost value: { Option Opened },
}

#[repr(C)]
pub struct Handle {
    kind: u64,
    held: Held,
    /// Beside it.
    pub channels: u32,
    ghost tied: { (kind \u2261 0) \u2194 (held.value \u2261 None) },
}

#[repr(C)]
#[derive(Clone, Copy)]
pub struct Params {
    pub rate: u32,
    pub size: u64,
}
"""
HEADER = """/** A client. */
typedef struct dmix_client {
    uint64_t kind_;
    void *held_;
    uint32_t channels_;
} dmix_client_t;

typedef struct dmix_params {
    uint32_t rate; /**< in Hz; more */
    uint64_t size;
} dmix_params_t;

int64_t dmix_c_open(dmix_client_t *client, const dmix_params_t *params);
int64_t dmix_c_write(dmix_client_t *client, const int16_t *samples, size_t count);

static inline int64_t dmix_open(dmix_client_t *client, const dmix_params_t *params)
{
    return client && params ? dmix_c_open(client, params) : -14;
}

static inline int64_t dmix_write(dmix_client_t *client, const void *buffer, size_t frames)
{
    return dmix_c_write(client, (const int16_t *)buffer, frames * client->channels_);
}
"""
NM = """#!/bin/sh
[ "$2" != none.a ] || { echo "none.a: no such file" >&2; exit 1; }
echo
echo "calls.o:"
echo "0000000000000000 T dmix_c_open"
echo "0000000000000010 T dmix_c_write"
echo "                 U rattle_alloc"
echo "                 U memcpy"
[ "$2" != strange.a ] || { echo "0000000000000020 T dmix_c_more"; echo "                 U pthread_create"; }
"""


class CheckHeader(unittest.TestCase):
    def setUp(self):
        self.room = tempfile.TemporaryDirectory()
        self.addCleanup(self.room.cleanup)
        self.write(f"{check_header.CRATE}/src/calls.rt", CALLS)
        self.write(f"{check_header.CRATE}/src/structs.rt", STRUCTS)
        self.write(check_header.HEADER, HEADER)

    def write(self, name, text):
        path = f"{self.room.name}/{name}"
        os.makedirs(os.path.dirname(path), exist_ok=True)
        with open(path, "w", encoding="utf-8") as file:
            file.write(text)

    def library_and_header(self):
        return check_header.Library(self.room.name), check_header.Header(self.room.name)

    def faults_after(self, old, new):
        """What is wrong once the header has another text."""
        self.assertIn(old, HEADER)
        self.write(check_header.HEADER, HEADER.replace(old, new))
        return check_header.compare(*self.library_and_header())[0]

    def test_the_same_functions_and_structs_pass(self):
        faults, named = check_header.compare(*self.library_and_header())
        self.assertEqual(faults, [])
        self.assertEqual(named, [("dmix_client_t", "Handle"), ("dmix_params_t", "Params")])

    def test_the_repository_s_own_header_passes(self):
        self.assertEqual(check_header.compare(check_header.Library(ROOT), check_header.Header(ROOT))[0], [])

    def test_a_function_that_one_side_lacks_is_named(self):
        self.assertEqual(self.faults_after("int64_t dmix_c_write(", "int64_t dmix_c_put("), ["dmix_c_put is in the header alone", "dmix_c_write is in the library alone"])

    def test_another_parameter_or_result_is_named(self):
        self.assertEqual(self.faults_after("const int16_t *samples", "int16_t *samples")[0].split(":")[0], "dmix_c_write, parameter 2")
        self.assertEqual(self.faults_after("_t *client, const dmix_params_t *params);", "_t *client, dmix_params_t *params);")[0].split(":")[0], "dmix_c_open, parameter 2")
        self.assertIn("3 parameters in the header", self.faults_after("const dmix_params_t *params);", "const dmix_params_t *params, int more);")[0])
        self.assertIn("gives int32_t", self.faults_after("int64_t dmix_c_open", "int32_t dmix_c_open")[0])

    def test_another_order_or_type_of_fields_is_named(self):
        self.assertIn("dmix_params_t has the fields", self.faults_after("uint32_t rate; /**< in Hz; more */\n    uint64_t size;", "uint64_t size;\n    uint32_t rate;")[0])
        self.assertIn("dmix_client_t has the fields", self.faults_after("uint32_t channels_;", "uint64_t channels_;")[0])

    def test_a_function_that_the_header_does_not_call_is_named(self):
        self.assertEqual(self.faults_after("return dmix_c_write(", "return other("), ["dmix_c_write is called by no function of the header"])

    def version_faults(self, line):
        self.write(check_header.VERSION, "dmixlab 1.2.3\n")
        self.write(check_header.HEADER, f"{line}\n{HEADER}")
        return list(check_header.check_version(self.room.name, self.library_and_header()[1]))

    def test_the_version_is_that_of_the_program(self):
        self.assertEqual(self.version_faults('#define DMIXLAB_VERSION "1.2.3"'), [])
        self.assertIn("1.2.4 in the header, and 1.2.3 in docs/version.txt", self.version_faults('#define DMIXLAB_VERSION "1.2.4"')[0])
        self.assertIn("nothing in the header", self.version_faults("/* none */")[0])
        self.assertEqual(list(check_header.check_version(ROOT, check_header.Header(ROOT))), [])

    def test_the_layout_has_the_offsets_of_aligned_fields(self):
        library, header = self.library_and_header()
        text = check_header.layout(library, header, check_header.compare(library, header)[1])
        self.assertIn("offsetof(dmix_params_t, size) == 8 && sizeof(((dmix_params_t *)0)->size) == 8", text)
        self.assertIn("SAME(sizeof(dmix_client_t) == 24,", text)

    @unittest.skipUnless(shutil.which("cc"), "there is no C compiler")
    def test_the_repository_s_own_layout_compiles(self):
        library, header = check_header.Library(ROOT), check_header.Header(ROOT)
        text = check_header.layout(library, header, check_header.compare(library, header)[1])
        for words in (["-xc", "-std=c11"], ["-xc++", "-std=c++17"]):
            ran = subprocess.run(["cc", *words, "-fsyntax-only", "-Wall", f"-I{ROOT}/include", "-"], input=text, capture_output=True, text=True)
            self.assertEqual((ran.returncode, ran.stderr), (0, ""))

    def archive_faults(self, archive):
        self.write("bin/nm", NM)
        os.chmod(f"{self.room.name}/bin/nm", 0o755)
        with mock.patch.dict(os.environ, PATH=f"{self.room.name}/bin:{os.environ['PATH']}"):
            return list(check_header.check_archive(archive, self.library_and_header()[1]))

    def test_an_archive_with_the_same_functions_passes(self):
        self.assertEqual(self.archive_faults("lib.a"), [])

    def test_what_an_archive_has_or_wants_beside_is_named(self):
        faults = self.archive_faults("strange.a")
        self.assertEqual([it.split()[0] for it in faults], ["dmix_c_more", "the"])
        self.assertIn("pthread_create", faults[1])

    def test_an_archive_that_can_t_be_read_is_refused(self):
        with self.assertRaises(command.Refused):
            self.archive_faults("none.a")


if __name__ == "__main__":
    unittest.main()

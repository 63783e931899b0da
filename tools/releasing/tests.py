"""Tests of a release in a clean root, one after the other: the archive first, then the package from its start to its end."""

from __future__ import annotations

import filecmp
import hashlib
import os
import shutil
import subprocess
import time
import unittest

dist = package = archive = root = work = ""
with_ghc = False

HELLO = "/usr/share/doc/conc-run/examples/hello.conc"
OF_THE_SYSTEM = ("/proc", "/sys", "/dev", "/var/cache", "/var/log", "/var/lib/apt", "/var/lib/dpkg", "/tmp", "/run")
UPDATE = "/usr/share/doc/conc-run/examples/update.conc"
LOCK = "/usr/share/doc/conc-run/examples/haskell/LostLock.hs"


def within(*words: str, script: bytes = b"", folder: str = "/", **env: str) -> subprocess.CompletedProcess[bytes]:
    """Runs a command in the clean root."""
    return subprocess.run(["chroot", root, "/usr/bin/env", "-i", "-C", folder, "PATH=/usr/sbin:/usr/bin:/sbin:/bin", "LANG=C.UTF-8",
                           "DEBIAN_FRONTEND=noninteractive", *(f"{name}={value}" for name, value in env.items()), *words], input=script, capture_output=True, check=False)


def as_nobody(*words: str, script: bytes = b"", folder: str = "/", **env: str) -> subprocess.CompletedProcess[bytes]:
    return within("setpriv", "--reuid=65534", "--regid=65534", "--clear-groups", "--", *words, script=script, folder=folder, **env)


def files() -> set[str]:
    """All files of the root but those that the system keeps of every package that it has seen."""
    found = set()
    for folder, inside, names in os.walk(root):
        inside[:] = [it for it in inside if os.path.join(folder, it)[len(root):] not in OF_THE_SYSTEM]
        found.update(os.path.join(folder, it)[len(root):] for it in names)
    return found


class Release(unittest.TestCase):
    """In the order of their names, since each goes on from the one before."""

    def ends(self, ran: subprocess.CompletedProcess[bytes], status: int, out: bytes | None = None, said: bytes = b"") -> None:
        self.assertEqual(status, ran.returncode, (ran.stdout[-500:], ran.stderr[-500:]))
        if out is not None:
            self.assertEqual(out, ran.stdout)
        self.assertIn(said, ran.stderr)

    def test_a_sums(self) -> None:
        with open(os.path.join(dist, "SHA256SUMS"), encoding="utf-8") as told:
            for line in told:
                checksum, name = line.split()
                with open(os.path.join(dist, name), "rb") as file:
                    self.assertEqual(checksum, hashlib.sha256(file.read()).hexdigest(), name)

    def test_a_the_same_bytes(self) -> None:
        """A release that is made once more is the same, byte for byte."""
        if not os.path.isdir(f"{dist}-again"):
            self.skipTest("it was made once: tools/release --out FOLDER and cmp show that")
        for name in os.listdir(dist):
            self.assertTrue(filecmp.cmp(os.path.join(dist, name), os.path.join(f"{dist}-again", name), shallow=False), name)

    def test_b_lintian(self) -> None:
        if not shutil.which("lintian"):
            self.skipTest("no lintian here")
        ran = subprocess.run(["lintian", "--fail-on", "error,warning", "--allow-root", package], capture_output=True, text=True, check=False)
        self.assertEqual((0, ""), (ran.returncode, ran.stdout))

    def test_c_archive_without_python(self) -> None:
        subprocess.run(["tar", "-xf", archive, "-C", os.path.join(root, "opt")], check=True)
        self.assertFalse(os.path.exists(os.path.join(root, "usr/bin/python3")))
        self.ends(as_nobody("./conc_run", "run", "examples/hello.conc", folder=self.unpacked()), 70, b"", b"Python 3.9")

    def unpacked(self) -> str:
        return "/opt/" + next(it for it in os.listdir(os.path.join(root, "opt")) if it.startswith("conc_run-"))

    def test_d_python(self) -> None:
        self.ends(within("apt-get", "update"), 0)
        self.ends(within("apt-get", "install", "-y", "--no-install-recommends", "python3"), 0)

    def test_e_archive(self) -> None:
        """It runs where it is unpacked, by a user who may write nowhere there."""
        folder = self.unpacked()
        self.ends(as_nobody("./conc_run", "run", "examples/hello.conc", folder=folder), 0, b"hello\n")
        self.ends(as_nobody(f"{folder}/conc_run", "outcomes", f"{folder}/examples/update.conc"), 0)
        self.assertIn(b"build: ", as_nobody("./conc_run", "--version", folder=folder).stdout)

    def test_f_archive_on_another_system(self) -> None:
        """What is missing is said: another machine, an older C library."""
        path = os.path.join(root, self.unpacked()[1:], "RELEASE")
        with open(path, encoding="utf-8") as file:
            was = file.read()
        for here, there, said in (("x86_64", "riscv64", b"this release is for riscv64"), ("glibc 2.", "glibc 9.", b"needs the GNU C library 9.")):
            with open(path, "w", encoding="utf-8") as file:
                file.write(was.replace(here, there))
            self.ends(as_nobody("./conc_run", "run", "examples/hello.conc", folder=self.unpacked()), 70, b"", said)
        shutil.rmtree(os.path.join(root, self.unpacked()[1:]))

    def test_g_install(self) -> None:
        type(self).before = files()
        shutil.copy(package, os.path.join(root, "tmp", "conc-run_new_amd64.deb"))
        self.older_package()
        self.ends(within("apt-get", "install", "-y", "--no-install-recommends", "/tmp/conc-run_old_amd64.deb"), 0)
        self.ends(within("conc_run", "run", HELLO), 0, b"hello\n")

    def older_package(self) -> None:
        """The same package with a lower version and a file that the newer one hasn't, in place of the release before."""
        folder = os.path.join(work, "older")
        subprocess.run(["dpkg-deb", "-R", package, folder], check=True)
        control = os.path.join(folder, "DEBIAN", "control")
        with open(control, encoding="utf-8") as file:
            text = file.read()
        with open(control, "w", encoding="utf-8") as file:
            file.write("\n".join("Version: 0.0.1" if it.startswith("Version:") else it for it in text.split("\n")))
        with open(os.path.join(folder, "usr/lib/conc-run/tools/run/left.py"), "w", encoding="utf-8") as file:
            file.write('"""Only the older one has this."""\n')
        older = os.path.join(root, "tmp", "conc-run_old_amd64.deb")
        subprocess.run(["dpkg-deb", "--root-owner-group", "-Znone", "-b", folder, older], check=True, stdout=subprocess.DEVNULL)
        shutil.rmtree(folder)

    def test_h_upgrade(self) -> None:
        self.ends(within("apt-get", "install", "-y", "--no-install-recommends", "/tmp/conc-run_new_amd64.deb"), 0)
        self.assertFalse(os.path.exists(os.path.join(root, "usr/lib/conc-run/tools/run/left.py")))
        self.ends(within("dpkg", "--verify", "conc-run"), 0, b"")

    def test_i_first_answers(self) -> None:
        begun = time.time()
        self.ends(as_nobody("conc_run", "run", HELLO), 0, b"hello\n")
        print(f"first answer after {(time.time() - begun) * 1000:.0f} ms")
        listed = as_nobody("conc_run", "outcomes", UPDATE)
        self.ends(listed, 0)
        self.assertTrue(listed.stdout.startswith(b"3 outcomes, and there are no others\n"))
        self.assertTrue(as_nobody("conc_run", "picture", HELLO).stdout.startswith(b"<svg "))
        self.ends(as_nobody("conc_run", "check", script=b"main :: IO () = { putStrLn 3 };"), 3, b"", b"refused: Mismatch at 1:19\n")
        self.ends(as_nobody("conc_run", "check", "--explain", script=b"main :: IO () = { putStrLn 3 };"), 3, b"", b"What to do")
        self.ends(as_nobody("conc_run", "run", "/nowhere.conc"), 66, b"", b"there is no file")
        page = as_nobody("conc_run", "--help")
        self.ends(page, 0)
        self.assertNotIn(b"./conc_run", page.stdout)

    def test_i_claims(self) -> None:
        from tools.run.words import COMMANDS
        if "claims" not in COMMANDS:
            self.skipTest("this version has no claims")
        self.ends(as_nobody("conc_run", "claims", script=b"--! never deadlock\nmain :: IO () = { return () };\n"), 0)

    def test_j_version(self) -> None:
        told = as_nobody("conc_run", "--version").stdout.decode().split("\n")
        self.assertTrue(told[0].startswith("conc_run "))
        self.assertTrue(told[1].startswith("build: proved") or "~unproved" in package and told[1].startswith("build: NOT PROVED"))
        self.assertTrue(told[2].startswith("kit: rattle-kit"))
        self.assertRegex(told[3], "^commit: [0-9a-f]{40}$")

    def test_k_what_needs_the_kit(self) -> None:
        for words in (("--prove",), ("test",), ("test", "--quick")):
            self.ends(as_nobody("conc_run", *words), 70, b"", b"needs the repository and the kit")

    def test_k_what_needs_ghc(self) -> None:
        """It says so in a line, and there is nothing to clean."""
        for words in (("outcomes", LOCK), ("script", LOCK), ("litmus", UPDATE)):
            self.ends(as_nobody("conc_run", *words, HOME="/tmp"), 70, b"", b"ghc")
        self.ends(as_nobody("conc_run", "--clean", HOME="/tmp"), 0)

    def test_l_by_ghc(self) -> None:
        """With the packages that it suggests: a module is asked, a script is run by GHC, and what was built for that is removed."""
        if not with_ghc:
            self.skipTest("--with-ghc tries it")
        # GHC's own package looks there for itself.
        subprocess.run(["mount", "-t", "proc", "proc", os.path.join(root, "proc")], check=True)
        self.addCleanup(subprocess.run, ["umount", os.path.join(root, "proc")], check=True)
        was = files()
        self.ends(within("apt-get", "install", "-y", "--no-install-recommends", "ghc", "libghc-async-dev"), 0)
        within("mkdir", "-m", "777", "/tmp/kept")
        listed = as_nobody("conc_run", "outcomes", LOCK, XDG_CACHE_HOME="/tmp/kept")
        self.ends(listed, 0)
        self.assertIn(b"blocked indefinitely", listed.stdout)
        self.ends(as_nobody("conc_run", "litmus", "--runs", "50", UPDATE, XDG_CACHE_HOME="/tmp/kept"), 0)
        built = os.listdir(os.path.join(root, "tmp/kept/conc-run"))
        self.assertLessEqual({"from-haskell", "scripts"}, {it.split("-9")[0] for it in built})
        self.ends(as_nobody("conc_run", "--clean", XDG_CACHE_HOME="/tmp/kept"), 0, b"removed /tmp/kept/conc-run\n")
        self.assertEqual([], os.listdir(os.path.join(root, "tmp/kept")))
        self.ends(within("apt-get", "purge", "-y", "--auto-remove", "ghc", "libghc-async-dev"), 0)
        # What those packages leave isn't this one's.
        type(self).before |= files() - was

    def test_l_read_only_home(self) -> None:
        """Nothing of the user's is written, and no temporary folder is needed."""
        self.ends(as_nobody("conc_run", "run", HELLO, HOME="/proc", TMPDIR="/proc"), 0, b"hello\n")
        self.ends(as_nobody("conc_run", "outcomes", UPDATE, HOME="/nonexistent"), 0)

    def test_m_full_disk(self) -> None:
        ran = subprocess.run(["chroot", root, "/bin/sh", "-c", f"conc_run run {HELLO} > /dev/full"], capture_output=True, check=False)
        self.assertEqual(8, ran.returncode, ran.stderr)
        disk = os.path.join(root, "mnt")
        subprocess.run(["mount", "-t", "tmpfs", "-o", "size=16k", "full", disk], check=True)
        self.addCleanup(subprocess.run, ["umount", disk], check=True)
        subprocess.run(["chroot", root, "/bin/sh", "-c", "chmod 777 /mnt; cat /dev/zero > /mnt/all 2> /dev/null"], check=False)
        self.ends(as_nobody("conc_run", "run", HELLO, TMPDIR="/mnt", HOME="/mnt"), 0, b"hello\n")

    def test_n_completions_and_manual(self) -> None:
        asked = "".join(f"COMP_WORDS=(conc_run {words}); COMP_CWORD={len(words.split())}; _conc_run; echo ${{COMPREPLY[@]}}; "
                        for words in ("outcomes --cl", "outcomes --clock v", "ou"))
        said = within("bash", "-c", f". /usr/share/bash-completion/completions/conc_run; {asked}")
        self.ends(said, 0, b"--clock\nvirtual\noutcomes\n")
        for shell, words in (("zsh", ["-n"]), ("fish", ["--no-execute"])):
            path = {"zsh": "usr/share/zsh/vendor-completions/_conc_run", "fish": "usr/share/fish/vendor_completions.d/conc_run.fish"}[shell]
            if shutil.which(shell):
                self.ends(subprocess.run([shell, *words, os.path.join(root, path)], capture_output=True, check=False), 0, None)
        manual = subprocess.run(["gzip", "-dc", os.path.join(root, "usr/share/man/man1/conc_run.1.gz")], capture_output=True, check=True).stdout
        self.assertIn(b".SH EXIT STATUS", manual)

    def test_o_remove(self) -> None:
        self.ends(within("apt-get", "purge", "-y", "conc-run"), 0)
        self.assertEqual(set(), files() - type(self).before)
        self.assertFalse(os.path.exists(os.path.join(root, "usr/lib/conc-run")))
        self.assertFalse(os.path.exists(os.path.join(root, "usr/share/doc/conc-run")))


Release.before = set()

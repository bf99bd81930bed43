"""The recipes of docs/suites.md that need servers, run exactly as shown: GNU parallel over ssh to two accounts, and Slurm job
arrays. Of each that runs shards, a job is killed and done again.

Servers listen on free ports of 127.0.0.1, with keys made for the test. At the end the test removes accounts, processes
and files. If a package cannot be installed, the test is skipped and says so.
"""

import os
import shutil
import socket
import subprocess
from dataclasses import replace
from pathlib import Path
from typing import Any

from galluspa.formats import recording
from tests.tools import samples
from tests.tools.debian import install
from tests.tools.samples import EXAMPLES, PROGRAM, STORED, TOP, Ran, ToolTest, group, record, rejoining, run, session, tool

ACCOUNTS = {"one.example": "galluspa-one", "two.example": "galluspa-two"}
COMMANDS = {"sshd": "openssh-server", "rsync": "rsync", "munged": "munge", "slurmctld": "slurmctld", "slurmd": "slurmd"}
COMMANDS |= {"sbatch": "slurm-client", "make": "make"}
SECONDS = 300
FOUND = f"{os.environ['PATH']}:/usr/sbin:/sbin"
# What runs as the program: each of its runs is killed while there is a file `kill`. A check that takes a file `jobs/kill` away is killed
# with its job, once it took a twentieth of a second or ended by itself; the letter of its state then is left in `jobs/killed`.
WRAPPER = """#!/bin/sh
cd FOLDER
[ -e kill ] && kill -9 $$
[ "$1" = check ] && mv jobs/kill jobs/taken 2>/dev/null || exec bin/program "$@"
exec 3<&0
bin/program "$@" <&3 >/dev/null &
while read -r it < /proc/$!/stat && set -- $it && [ "$3" != Z ] && [ "${14}" -lt 5 ]; do :; done
echo "$3" > jobs/killed
kill -9 $! $PPID $$
"""
QUIET: dict[str, Any] = {"stdout": subprocess.DEVNULL, "stderr": subprocess.DEVNULL, "stdin": subprocess.DEVNULL}


def recipe(name: str) -> str:
    """Returns a recipe of the document."""
    text = (TOP / "docs/suites.md").read_text()
    return group(rf"^<!-- recipe {name} -->\n```\w+\n(.*?)^```$", text)


def long_recording() -> bytes:
    """Returns a recording of 20,000,000,000 steps. Each quarter begins with some 250,000,000 that count down, and in the rest the machine
    waits for another switch. It is recorded with less of the rest: a machine that waits is in one of three states."""
    words = [0x5400FFC0, 0x60000773, 0x40090001, 0xE9FFFFFE, 0x81400004, 0x02190003, 0xE1FFFFFD, 0x03000001, 0xE7FFFFF8]
    short, quarter = 250_000_001, 5_000_000_000
    inputs = [(short * k, "switches", k) for k in range(1, 4)]
    read = recording.read(record(session(words, [short * k for k in range(1, 5)], inputs)))
    assert quarter % 3 == short % 3
    checkpoints = [replace(it, count=it.count // short * quarter) for it in read.checkpoints]
    events = [replace(it, count=it.count // short * quarter) for it in read.events]
    return recording.write(replace(read, checkpoints=checkpoints, events=events))


def free_port() -> int:
    """Returns a port of 127.0.0.1 that nothing listens on."""
    with socket.socket() as probe:
        probe.bind(("127.0.0.1", 0))
        return probe.getsockname()[1]


class RecipesTest(ToolTest):
    def setUp(self) -> None:
        super().setUp()
        self.folder.chmod(0o755)
        self.file("bin/program", PROGRAM.read_bytes()).chmod(0o755)
        self.file("bin/oberon_replay", WRAPPER.replace("FOLDER", str(self.folder))).chmod(0o755)
        self.file("bin/galluspa", f'#!/bin/sh\nexec {self.folder}/clone/galluspa "$@"\n').chmod(0o755)
        self.file("jobs/none", "").parent.chmod(0o777)
        self.clone()
        for name in ("keys", "hello", "flags", "clock"):
            self.file(f"suite/{name}.orsr", record((EXAMPLES / f"{name}.json").read_bytes()))
        self.file("suite/stored.orsr", STORED)

    def clone(self) -> None:
        """The command galluspa, over what runs as the program, where other accounts can read it."""
        clone = self.folder / "clone"
        shutil.copytree(TOP / "tools", clone / "tools", ignore=shutil.ignore_patterns("__pycache__"))
        shutil.copy(TOP / "galluspa", clone)
        built = clone / "crates/oberon_replay/out"
        built.mkdir(parents=True)
        (built / "oberon_replay").symlink_to(self.folder / "bin/oberon_replay")

    def want(self, *commands: str) -> None:
        """Sees that commands are there, or installs the packages that have them; else the test is skipped."""
        if os.geteuid():
            self.skipTest("only root can make accounts and start servers")
        missing = [COMMANDS[it] for it in commands if not shutil.which(it, path=FOUND)]
        if not missing:
            return
        if Path("/run/systemd/system").exists():
            self.skipTest(f"{', '.join(missing)} would be started as services if this test installed them")
        install(missing)
        if left := [it for it in commands if not shutil.which(it, path=FOUND)]:
            self.skipTest(f"{', '.join(COMMANDS[it] for it in left)} can't be installed")

    def start(self, *words: object) -> None:
        """Starts a server, which is ended with the test."""
        path = shutil.which(str(words[0]), path=FOUND) or str(words[0])
        server = subprocess.Popen([path, *map(str, words[1:])], **QUIET, env=self.environment())
        self.addCleanup(server.wait, 10)
        self.addCleanup(server.terminate)

    def environment(self) -> dict[str, str]:
        """Returns where the program, the servers' words and no bytecode are found."""
        return {
            **os.environ,
            "PATH": f"{self.folder}/bin:{FOUND}",
            "PYTHONDONTWRITEBYTECODE": "1",
            "SLURM_CONF": f"{self.folder}/slurm.conf",
            "PARALLEL_SSH": f"ssh -F {self.folder}/ssh_config",
        }

    def until(self, *words: str) -> None:
        """Waits until a command succeeds."""
        samples.until(lambda: not subprocess.run(words, check=False, env=self.environment(), **QUIET).returncode)

    def killing(self, is_on: bool) -> None:
        """Has all checks killed from now on, or none."""
        if is_on:
            self.file("kill", "")
        else:
            (self.folder / "kill").unlink()

    def kill_a_job(self) -> None:
        """Has the next job killed that runs the program."""
        (self.folder / "jobs/killed").unlink(missing_ok=True)
        self.file("jobs/kill", "")

    def assert_killed(self, is_at_work: bool = False) -> None:
        """A job was killed; while its check was at work, if it takes long."""
        state = (self.folder / "jobs/killed").read_text().strip()
        self.assertIn(state, ("R", "S", "D") if is_at_work else ("R", "S", "D", "Z"))

    def checked(self, path: Path) -> tuple[bytes, int]:
        """Returns the line of a recording and the status of its check on one machine."""
        ran = run([PROGRAM, "check"], path.read_bytes())
        return ran.output, ran.status

    def run_recipe(self, name: str) -> Ran:
        """Runs a recipe in the test's folder."""
        return run(["bash", "-uc", recipe(name)], cwd=self.folder, env=self.environment(), timeout=SECONDS)


class ParallelTest(RecipesTest):
    def test_over_ssh_to_two_accounts(self) -> None:
        self.want("sshd", "rsync")
        self.accounts()
        self.sshd()
        ran = self.run_recipe("parallel")
        self.assertEqual(ran.status, 0, ran.errors)
        lines = sorted((self.folder / "lines.txt").read_text().splitlines())
        self.assertEqual(lines[-1], "suite/stored.orsr\taccepted 1 checkpoints 100 steps")
        self.assertEqual([line.split("\t")[1].split()[0] for line in lines], ["accepted"] * 5)
        hosts = {line.split("\t")[1] for line in (self.folder / "jobs.log").read_text().splitlines()[1:]}
        self.assertEqual(hosts, set(ACCOUNTS))
        self.assertEqual([list(Path(f"/home/{name}").rglob("*.orsr")) for name in ACCOUNTS.values()], [[], []])
        for name in ("keys", "hello", "flags", "clock"):
            (self.folder / f"suite/{name}.orsr").unlink()
        self.file("suite/with a space.orsr", STORED)
        self.file("suite/false.orsr", rejoining(9))
        for killed, status in ((False, 1), (False, 1), (True, 3)):
            if killed:
                self.killing(True)
            self.assertEqual(self.run_recipe("parallel").status, status)
            accepted = [line for line in (self.folder / "lines.txt").read_text().splitlines() if "\taccepted " in line]
            self.assertEqual(len(accepted), 0 if killed else 2)

    def test_shards_of_a_long_recording(self) -> None:
        self.want("sshd", "rsync")
        self.accounts()
        self.sshd()
        alone = self.checked(self.file("long.orsr", long_recording()))
        self.assertEqual(alone, (b"accepted 4 checkpoints 20000000000 steps\n", 0))
        self.kill_a_job()
        ran = self.run_recipe("shards")
        self.assertEqual((ran.output, ran.status), alone, ran.errors)
        self.assert_killed(is_at_work=True)
        self.assertEqual([list(Path(f"/home/{name}").rglob("*.orsr")) for name in ACCOUNTS.values()], [[], []])

    def test_the_status_stops_at_101(self) -> None:
        for jobs, status in ((3, 3), (103, 101)):
            command = f"parallel -j 16 'exit 1' ::: $(seq {jobs})"
            self.assertEqual(run(["bash", "-c", command], env=self.environment()).status, status)

    def accounts(self) -> None:
        """Two accounts, without passwords."""
        for name in ACCOUNTS.values():
            made = run(["useradd", "--create-home", "--shell", "/bin/bash", "--password", "*", name], env=self.environment())
            if made.status:
                self.skipTest(f"no account can be made: {made.errors.strip()}")
            self.addCleanup(run, ["userdel", "--force", "--remove", name], env=self.environment())

    def sshd(self) -> None:
        """A server of ssh for these accounts, and the words that lead to it."""
        port = free_port()
        for key in ("host", "user"):
            subprocess.run(["ssh-keygen", "-q", "-t", "ed25519", "-N", "", "-f", self.folder / key], check=True)
        self.file("authorized", (self.folder / "user.pub").read_bytes())
        self.file(
            "sshd_config",
            f"""ListenAddress 127.0.0.1:{port}
            HostKey {self.folder}/host\nPidFile none\nAuthorizedKeysFile {self.folder}/authorized\nStrictModes no\nUsePAM no
            PasswordAuthentication no\nAllowUsers {' '.join(ACCOUNTS.values())}\nSetEnv PATH={self.folder}/bin:/usr/bin:/bin\n""",
        )
        self.file(
            "ssh_config",
            "".join(
                f"Host {host}\nHostName 127.0.0.1\nPort {port}\nUser {name}\nIdentityFile {self.folder}/user\nIdentitiesOnly yes\n"
                f"StrictHostKeyChecking no\nUserKnownHostsFile {self.folder}/known\nLogLevel ERROR\n"
                for host, name in ACCOUNTS.items()
            ),
        )
        separate = Path("/run/sshd")
        if not separate.exists():
            separate.mkdir(0o755)
            self.addCleanup(separate.rmdir)
        self.start("sshd", "-D", "-f", self.folder / "sshd_config")
        self.until("ssh", "-F", f"{self.folder}/ssh_config", "one.example", "true")


class SlurmTest(RecipesTest):
    def test_job_arrays(self) -> None:
        self.want("munged", "slurmctld", "slurmd", "sbatch")
        self.cluster()
        self.long_recording()

    def long_recording(self) -> None:
        """The shards of one recording, each a task of an array."""
        alone = self.checked(self.file("long.orsr", long_recording()))
        self.kill_a_job()
        ran = self.run_recipe("shard-array")
        self.assert_killed(is_at_work=True)
        self.assertRegex(ran.output.decode(), r"^shards refused 6 missing segments (\d) to \1\n$")
        self.assertEqual(ran.status, 2)
        for _ in range(2):
            ran = self.run_recipe("shard-array")
            self.assertEqual((ran.output, ran.status), alone, ran.errors)
        self.file("long.orsr", tool("claim", EXAMPLES / "face.orsr", "--at", 3, "--set", "R5=9").output)
        (self.folder / "lines/3").unlink()
        self.assertEqual(self.run_recipe("shard-array").output, b"shards refused 4 file at line 3\n")
        shutil.rmtree(self.folder / "lines")
        ran = self.run_recipe("shard-array")
        self.assertEqual((ran.output, ran.status), (b"false checkpoint 3 at 12000000 part R5\n", 1))

    def cluster(self) -> None:
        """A cluster of this machine alone."""
        host, it = socket.gethostname(), self.folder
        self.file(
            "slurm.conf",
            f"""ClusterName=recipes\nSlurmctldHost={host}(127.0.0.1)\nSlurmUser=root\nSlurmdUser=root
            AuthType=auth/munge\nAuthInfo=socket={it}/munge.socket\nCredType=cred/munge\nStateSaveLocation={it}/state
            SlurmdSpoolDir={it}/spool\nSlurmctldPidFile={it}/slurmctld.pid\nSlurmdPidFile={it}/slurmd.pid
            SlurmctldLogFile={it}/slurmctld.log\nSlurmdLogFile={it}/slurmd.log\nSlurmctldPort={free_port()}\nSlurmdPort={free_port()}
            ProctrackType=proctrack/linuxproc\nTaskPlugin=task/none
            CommunicationParameters=NoInAddrAny,NoCtldInAddrAny\nSelectType=select/cons_tres\nSelectTypeParameters=CR_CPU
            SchedulerType=sched/builtin\nSchedulerParameters=batch_sched_delay=0,sched_interval=1,sched_min_interval=0
            NodeName={host} NodeAddr=127.0.0.1 CPUs={os.cpu_count()} State=UNKNOWN
            PartitionName=main Nodes=ALL Default=YES State=UP\n""".replace(
                "            ", ""
            ),
        )
        for name in ("state", "spool"):
            (it / name).mkdir()
        self.file("munge.key", os.urandom(128)).chmod(0o600)
        files = ("socket=munge.socket", "key-file=munge.key", "pid-file=munged.pid", "log-file=munged.log", "seed-file=seed")
        options = (f"--{name}={it}/{file}" for name, file in (option.split("=") for option in files))
        self.start("munged", "--foreground", "--force", *options)
        self.until("test", "-S", f"{it}/munge.socket")
        self.start("slurmctld", "-D")
        self.start("slurmd", "-D", "-N", host)
        self.until("sh", "-c", "sinfo -h -o %t | grep -qx idle")

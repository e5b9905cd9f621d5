#!/usr/bin/env python3
"""What tools/package makes works without the kit: unpacked from the archive the README's commands print what the page shows, and so they
do from the Debian package. Versions say the commit and whether the programs are proved, manual pages and completions are there,
live.py starts, and the same commit and programs give the same files. Where Go, Alertmanager's packages and prometheus-alertmanager are,
fentdolmen starts from the second Debian package, with the board of the first.

Where files were changed since the commit, or the programs aren't those of the gate (BUILT=yes), the package is an unproved one.
"""
import os
import re
import subprocess
import sys
import tempfile
import time
import urllib.request
from pathlib import Path

sys.path.insert(0, str(Path(__file__).resolve().parent.parent))
from lib import report
from lib.program import ROOT
from lib.report import Programs, Report

# (the system's programs alone: no kit)
PLAIN = {"PATH": "/usr/bin:/bin", "HOME": "/nonexistent"}
SECOND = "fentdolmen-alertmanager_"
# A notice that the second package has to have.
NOTICE = Path("/usr/share/doc/prometheus-alertmanager/NOTICE")
CONFIG = "route: {receiver: team}\nreceivers: [{name: team, webhook_configs: [{url: 'http://127.0.0.1:9/'}]}]\n"


def tell(told: Report, what: str, is_right: object, why: object = "") -> None:
    """A case that passes, or what was found instead."""
    told.holds(what, bool(is_right), *str(why).splitlines()[:report.MOST])


def git(*words: str) -> str:
    """What git prints of the repository."""
    return subprocess.run(["git", *words], cwd=ROOT, capture_output=True, text=True, check=True).stdout


def output(words: list[str | Path], at: Path | None = None, **more: str) -> tuple[int, str]:
    """The status and the output of a command that knows the system's programs alone."""
    ran = subprocess.run(words, cwd=at, env={**PLAIN, **more}, stdin=subprocess.DEVNULL, capture_output=True, text=True, check=False)
    return ran.returncode, ran.stdout


def shown(word: str, page: str = "README.md") -> tuple[str, str]:
    """The first command of a page with a word, and what the page shows that it prints."""
    parts = (ROOT / page).read_text(encoding="utf-8").split("\n```")[1:]
    return next((command, after[1:] + "\n") for block, after in zip(parts[::2], parts[2::2])
                for command in block.splitlines()[1:] if word in command)


def packages(into: Path, *words: str) -> dict[str, Path]:
    """The files that tools/package makes, by what they end with."""
    ran = subprocess.run([ROOT / "tools/package", *words, "--into", into], stdout=subprocess.PIPE, text=True, check=False)
    kinds = re.compile(rf"{SECOND}|tar\.gz$|deb$|sha256$")
    return {kind: Path(it) for it in ran.stdout.splitlines() for kind in kinds.findall(it)[:1]}


def archive(told: Report, made: dict[str, Path], work: Path, is_proved: bool) -> None:
    """The archive, unpacked."""
    sums = subprocess.run(["sha256sum", "--check", "--quiet", made["sha256"].name], cwd=made["sha256"].parent, check=False)
    tell(told, "the sums", sums.returncode == 0)
    subprocess.run(["tar", "-xzf", made["tar.gz"], "-C", work, "--strip-components", "1"], check=True)
    for word, page in (("./rehearse", "README.md"), ("tools/am-run", "docs/scenarios.md")):
        command, wanted = shown(word, page)
        told.same(f"the archive: {command}", (0, wanted), output(["bash", "-c", command], work), page)
    board = subprocess.run(["tools/am-dispatch"], cwd=work, env=PLAIN, input="# a\n", capture_output=True, text=True, check=False)
    told.same("the archive: tools/am-dispatch", (0, "# a\n"), (board.returncode, board.stdout))
    head = git("rev-parse", "--short=8", "HEAD").strip()
    for name in ("am-rehearse", "am-run", "am-dispatch"):
        status, got = output([work / "bin" / name, "--version"])
        proved = r"proved with Rattle, logic \w+" if is_proved else "not proved"
        pattern = rf"{name} \d+\.\d+\.\d+, commit {head}( with changes)?, {proved}\n"
        tell(told, f"{name} --version", status == 0 and re.fullmatch(pattern, got), got)
        packed = work / f"share/man/man1/{name}.1.gz"
        manual = subprocess.run(["gzip", "-dc", packed], stdout=subprocess.PIPE, text=True, check=True).stdout
        tell(told, f"{name}: its manual page", manual.startswith(f".TH {name.upper()} 1\n"), manual[:50])
    for shell, file in (("bash", "bash-completion/completions/am-rehearse"), ("zsh", "zsh/vendor-completions/_am-rehearse"),
                        ("fish", "fish/vendor_completions.d/am-rehearse.fish")):
        text = (work / "share" / file).read_text(encoding="utf-8")
        tell(told, f"completions for {shell}", all(it in text for it in ("compare", "junit", "timeline")), text)
        if output(["sh", "-c", f"command -v {shell}"])[0] == 0:
            tell(told, f"{shell} reads them", output([shell, "-n", work / "share" / file])[0] == 0)
    status = subprocess.run([work / "bin/am-rehearse", "play", "nowhere.yml"], env=PLAIN, capture_output=True, check=False).returncode
    tell(told, "a status passes through", status == 1, status)


def live(told: Report, work: Path) -> None:
    """live.py of the archive, with its board."""
    starts(told, "live.py", [sys.executable, "share/fentdolmen/live.py"], work, '"OK"')


def starts(told: Report, what: str, program: list[str], work: Path, wanted: str) -> None:
    """A program with Alertmanager's options gets ready with a configuration, and ends at a signal."""
    (work / "alertmanager.yml").write_text(CONFIG)
    words = [*program, "--config.file", "alertmanager.yml", "--storage.path", "data", "--web.listen-address", "127.0.0.1:0"]
    # (a free port, which another may take meanwhile: then it is tried once more)
    for port in range(39093, 39193, 7):
        words[-1] = f"127.0.0.1:{port}"
        with subprocess.Popen(words, cwd=work, env=PLAIN, stderr=subprocess.PIPE, text=True) as ran:
            answer = ready(ran, port)
            ran.terminate()
            said = ran.communicate()[1]
        if "already in use" not in said:
            break
    tell(told, what, answer == wanted and ran.returncode == 0, f"{answer} {ran.returncode} {said}")


def ready(ran: subprocess.Popen[str], port: int) -> str:
    """What live.py answers to whether it is ready, once it listens."""
    while ran.poll() is None:
        try:
            with urllib.request.urlopen(f"http://127.0.0.1:{port}/-/ready", timeout=10) as answer:
                return str(answer.read().decode())
        except OSError:
            time.sleep(0.1)
    return ""


def debian(told: Report, made: dict[str, Path], work: Path) -> None:
    """The Debian package, unpacked into a folder as into a system."""
    needed = output(["dpkg-deb", "--field", made["deb"], "Depends"])[1].strip()
    tell(told, "it depends on a C library of Debian 12 at most", re.search(r"libc6 \(>= 2\.(3[0-6]|[12]\d)\)", needed), needed)
    subprocess.run(["dpkg-deb", "--extract", made["deb"], work], check=True)
    command, wanted = shown("./rehearse")
    got = output(["bash", "-c", command.replace("./rehearse", "am-rehearse")], work / "usr/share/doc/fentdolmen",
                 PATH=f"{work}/usr/bin:/usr/bin:/bin")
    told.same("the Debian package: the first command", (0, wanted), got, "README.md")
    names = {it.split(maxsplit=5)[-1] for it in output(["dpkg-deb", "--contents", made["deb"]])[1].splitlines()}
    told.same("it puts files below usr/ alone", [], [it for it in names if not it.startswith("./usr/") and it != "./"])


def service(told: Report, made: dict[str, Path], work: Path) -> None:
    """The Debian package of fentdolmen, unpacked next to the other one."""
    packed = made[SECOND]
    needed, version = (output(["dpkg-deb", "--field", it, name])[1].strip() for it, name in ((packed, "Depends"), (made["deb"], "Version")))
    tell(told, "it depends on the other package of its version, and on Alertmanager 0.25",
         f"fentdolmen (= {version})" in needed and "prometheus-alertmanager (>= 0.25)" in needed, needed)
    subprocess.run(["dpkg-deb", "--extract", packed, work], check=True)
    notices = {it.name for it in (work / "usr/share/fentdolmen-alertmanager/notices").iterdir()}
    tell(told, "it has the licences", {"Apache-2.0", "prometheus-alertmanager.NOTICE"} <= notices and len(notices) > 60, sorted(notices))
    manual = output(["gzip", "-dc", str(work / "usr/share/man/man1/fentdolmen.1.gz")])[1]
    tell(told, "its manual page has the options", ".SH SIGNALS" in manual and "--board.history" in manual, manual)
    unit = (work / "usr/lib/systemd/system/prometheus-alertmanager.service.d/fentdolmen.conf").read_text(encoding="utf-8")
    tell(told, "the service runs it", "\nExecStart=\nExecStart=/usr/bin/fentdolmen $ARGS\n" in unit, unit)
    verified(told, unit, work)
    if Path("/usr/share/prometheus/alertmanager/default.tmpl").exists():
        starts(told, "fentdolmen with the board of the other package", ["usr/bin/fentdolmen", "--cluster.listen-address="], work, "OK")


def verified(told: Report, unit: str, work: Path) -> None:
    """Debian's service with the file of the package, by systemd's own check. (The program is where it was unpacked.)"""
    service_of = Path("/lib/systemd/system/prometheus-alertmanager.service")
    if not service_of.exists() or output(["sh", "-c", "command -v systemd-analyze"])[0] != 0:
        told.skip("what systemd says of the service", "systemd or prometheus-alertmanager isn't installed")
        return
    copy = work / "units" / service_of.name
    (copy.parent / f"{copy.name}.d").mkdir(parents=True)
    copy.write_text(service_of.read_text(encoding="utf-8"))
    (copy.parent / f"{copy.name}.d/fentdolmen.conf").write_text(unit.replace("/usr/bin/fentdolmen", f"{work}/usr/bin/fentdolmen"))
    ran = subprocess.run(["systemd-analyze", "verify", "--man=no", copy], env=PLAIN, stdout=subprocess.PIPE, stderr=subprocess.STDOUT,
                         text=True, check=False)
    told.same("what systemd says of the service", (0, ""), (ran.returncode, ran.stdout))


def package(told: Report, _: Programs) -> None:
    """The archive and the Debian package."""
    is_proved = not git("status", "--porcelain") and os.environ.get("BUILT") == "yes"
    with tempfile.TemporaryDirectory(prefix="packages-") as name:
        work = Path(name)
        made, again = (packages(work / it, *[] if is_proved else ["--unproved"]) for it in ("made", "again"))
        kinds = {"tar.gz", "sha256"} | ({"deb"} if output(["sh", "-c", "command -v dpkg-deb"])[0] == 0 else set())
        if "deb" in kinds and "skipped" not in output(["bash", "-c", ". alertmanager/environment"], ROOT)[1]:
            if NOTICE.exists():
                kinds.add(SECOND)
            else:
                told.skip("the second package", "prometheus-alertmanager isn't installed, so its licence isn't there")
        if not told.same("tools/package", sorted(kinds), sorted(made)):
            return
        is_same = all(made[it].read_bytes() == again[it].read_bytes() and made[it].name == again[it].name for it in kinds)
        tell(told, "the same files again", is_same)
        tell(told, "the names say whether it is proved", all(("unproved" in it.name) != is_proved for it in made.values()), made)
        (work / "archive").mkdir()
        archive(told, made, work / "archive", is_proved)
        live(told, work / "archive")
        if "deb" in made:
            debian(told, made, work / "root")
        if SECOND in made:
            service(told, made, work / "root")


PARTS = {"package": package}

if __name__ == "__main__":
    report.main(__file__, PARTS, (), __doc__)

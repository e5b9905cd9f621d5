#!/usr/bin/env python3
"""The steps of examples/ci do what they say. Their shell runs here, with an archive that has a program, in a made repository with a branch
that changes its alertmanager.yml: a story is met, then one isn't. `gh` and the API of GitLab are made up, and say what they were given.
"""
import hashlib
import json
import re
import shutil
import subprocess
import sys
import tempfile
import xml.etree.ElementTree as XML
from collections.abc import Callable
from pathlib import Path
from typing import Any, NamedTuple

sys.path.insert(0, str(Path(__file__).resolve().parent.parent))
from lib import report
from lib.program import ROOT, Program
from lib.report import Programs, Report

# What the steps call of the network, and of the system's packages: each notes its words, and what it was to send.
MADE = {
    "curl": 'for word; do case $word in http*) url=$word;; body@*) cp "${word#body@}" "$NOTED.body";; esac; done\n'
            'case $url in *archive.tar.gz) exec cp "$TARBALL" "$(echo "$@" | sed "s/.*--output \\([^ ]*\\).*/\\1/")";; esac\n'
            'echo "curl $*" >> "$NOTED"; case "$*" in *--request*) ;; *) cat "$NOTES";; esac',
    "gh": 'echo "gh $*" >> "$NOTED"; case "$*" in *--edit-last*) [ -f "$NOTED.body" ] || exit 1;; esac; cp comment.md "$NOTED.body"',
    "apt-get": 'echo "apt-get $*" >> "$NOTED"',
}
STORY = """until: 20m
alerts:
  - labels: {alertname: DiskFull, severity: critical}
    to: 8m
expect:
  - {receiver: team, to: WITHIN}
"""
CONFIG = """route: {receiver: team, group_by: [alertname], group_wait: WAIT}
receivers: [{name: team, webhook_configs: [{url: "http://team.example"}]}]
"""


def tell(told: Report, what: str, is_right: object, why: object = "") -> None:
    """A case that passes, or what was found instead."""
    told.holds(what, bool(is_right), *str(why).splitlines()[:report.MOST])


class Repository:
    """A repository with an alertmanager.yml and two stories, whose branch waits longer before the first notification."""

    def __init__(self, at: Path, within: str) -> None:
        self.at, self.tree, self.noted, self.log = at, at / "tree", at / "noted", ""
        (self.tree / "alertmanager/stories").mkdir(parents=True)
        self.git("init", "-q", "-b", "main")
        self.write("1s")
        for name, limit in (("early", within), ("late", "5m")):
            (self.tree / f"alertmanager/stories/{name}.yml").write_text(STORY.replace("WITHIN", limit))
        self.commit()
        self.git("update-ref", "refs/remotes/origin/main", "HEAD")
        self.base = self.git("rev-parse", "HEAD").strip()
        self.write("2m")
        self.commit()
        self.bin = at / "bin"
        self.bin.mkdir()
        for name, text in MADE.items():
            (self.bin / name).write_text(f"#!/bin/sh\n{text}\n")
            (self.bin / name).chmod(0o755)
        (at / "notes").write_text('[{"id": 7, "body": "another"}]')

    def write(self, wait: str) -> None:
        (self.tree / "alertmanager/alertmanager.yml").write_text(CONFIG.replace("WAIT", wait))

    def git(self, *words: str) -> str:
        return subprocess.run(["git", "-c", "user.name=a", "-c", "user.email=a@b", *words], cwd=self.tree, capture_output=True, text=True,
                              check=True).stdout

    def commit(self) -> None:
        self.git("add", "-A")
        self.git("commit", "-qm", "a change")

    def run(self, script: str, archive: Path, **more: str) -> tuple[int, str]:
        """The status of a script, and what it says."""
        environment = {"PATH": f"{self.bin}:/usr/bin:/bin", "HOME": str(self.at), "NOTED": str(self.noted), "NOTES": str(self.at / "notes"),
                       "TARBALL": str(archive),
                       "ARCHIVE": "https://example.org/archive.tar.gz", "SHA256": hashlib.sha256(archive.read_bytes()).hexdigest(),
                       "CONFIG": "alertmanager/alertmanager.yml", "STORIES": "alertmanager/stories", **more}
        ran = subprocess.run(["bash", "-eo", "pipefail", "-c", script], cwd=self.tree, env=environment, stdin=subprocess.DEVNULL,
                             stdout=subprocess.PIPE, stderr=subprocess.STDOUT, text=True, check=False)
        return ran.returncode, ran.stdout

    def said(self) -> str:
        return self.noted.read_text() if self.noted.exists() else ""

    def body(self) -> str:
        path = Path(f"{self.noted}.body")
        return path.read_text() if path.exists() else ""


def value_of(program: Program, name: str) -> Any:
    """The value of a file of examples/ci."""
    return json.loads(subprocess.run([program.path, "json", ROOT / "examples/ci" / name], stdout=subprocess.PIPE, check=True).stdout)


def github(program: Program, repository: Repository, archive: Path) -> int:
    """Runs the steps one by one, as a runner does: one that fails is followed by those that run all the same."""
    job, status, path = value_of(program, "github.yml")["jobs"]["rehearse"], 0, repository.at / "path"
    # (each run of a runner begins with an empty folder)
    shutil.rmtree(repository.at / "runner", ignore_errors=True)
    (repository.at / "runner").mkdir()
    path.write_text("")
    for step in [it for it in job["steps"] if "run" in it]:
        if status and "if" not in step:
            continue
        added = "".join(f"{it}:" for it in path.read_text().split())
        ended, said = repository.run(step["run"], archive, RUNNER_TEMP=str(repository.at / "runner"), GITHUB_PATH=str(path),
                                     GITHUB_BASE_REF="main", GITHUB_STEP_SUMMARY=str(repository.at / "summary"), REQUEST="12",
                                     PATH=f"{added}{repository.bin}:/usr/bin:/bin")
        repository.log += said
        status = status or ended
    return status


def gitlab(program: Program, repository: Repository, archive: Path, token: str = "secret") -> int:
    """Runs the lines of the job in one shell, as a runner does."""
    job = value_of(program, "gitlab.yml")["rehearse"]
    script = "\n".join(job["before_script"] + job["script"]).replace("/tmp/", f"{repository.at}/tmp/")
    (repository.at / "tmp").mkdir(exist_ok=True)
    status, said = repository.run(script, archive, CI_MERGE_REQUEST_DIFF_BASE_SHA=repository.base, CI_PROJECT_ID="3",
                                  CI_API_V4_URL="https://gitlab.example/api/v4", CI_MERGE_REQUEST_IID="12", COMMENT_TOKEN=token)
    repository.log += said
    return status


class Test(NamedTuple):
    """A test of a JUnit file."""

    suite: str | None
    story: str | None
    name: str | None
    has_failed: bool


def tests_of(repository: Repository) -> list[Test]:
    """All tests in the JUnit files."""
    reports = [XML.parse(it).getroot() for it in sorted((repository.tree / "junit").glob("*.xml"))]
    return [Test(suite.get("name"), case.get("classname"), case.get("name"), bool(len(case)))
            for report in reports for suite in report.iter("testsuite") for case in suite.iter("testcase")]


def check(told: Report, name: str, run: Callable[[Repository], int], made: Path) -> Repository:
    """A job on a branch whose stories are met, and on one of which one isn't."""
    good, bad = Repository(made / f"{name}-good", "3m"), Repository(made / f"{name}-bad", "1m")
    early, late = (Test(it, it, "expect 0", False) for it in ("alertmanager/stories/early.yml", "alertmanager/stories/late.yml"))
    tell(told, f"{name}: all is met", run(good) == 0, good.log)
    told.same(f"{name}: a test for each story", [early, late], tests_of(good))
    body = good.body()
    tell(told, f"{name}: the comment", len(re.findall(r"^~ 00:00:01 -> 00:02:00 ", body, re.MULTILINE)) == 2
         and body.count("```diff\n") == 2 and "`alertmanager/stories/early.yml`" in body, body)
    tell(told, f"{name}: one isn't met", run(bad) == 5, bad.log)
    told.same(f"{name}: its test failed", [early._replace(has_failed=True), late], tests_of(bad))
    tell(told, f"{name}: it has a comment too", "```diff" in bad.body(), bad.said())
    (bad.tree / "alertmanager/stories/late.yml").write_text("until: soon\n")
    tell(told, f"{name}: a rejected story", run(bad) == 2, bad.log)
    told.same(f"{name}: its error", [early._replace(has_failed=True), late._replace(name="story", has_failed=True)], tests_of(bad))
    (bad.tree / "alertmanager/alertmanager.yml").write_text("route: {receiver: nobody}\n")
    tell(told, f"{name}: a rejected file", run(bad) == 2, bad.log)
    return good


def packed(program: Program, made: Path) -> Path:
    """An archive with the program."""
    (made / "packed/fentdolmen/bin").mkdir(parents=True)
    shutil.copy(program.path, made / "packed/fentdolmen/bin/am-rehearse")
    archive = made / "archive.tar.gz"
    subprocess.run(["tar", "-czf", archive, "-C", made / "packed", "fentdolmen"], check=True)
    return archive


def on_github(told: Report, program: Program, made: Path) -> None:
    """The steps of github.yml."""
    archive = packed(program, made)
    good = check(told, "github", lambda it: github(program, it, archive), made)
    tell(told, "github: a new comment, and then the same one", github(program, good, archive) == 0, good.log)
    comments = re.findall(r"gh pr comment 12( --edit-last)? --body-file comment.md\n", good.said())
    told.same("github: its calls", [" --edit-last", "", " --edit-last"], comments)
    tell(told, "github: the summary", (good.at / "summary").read_text().startswith(good.body()), good.body())


def on_gitlab(told: Report, program: Program, made: Path) -> None:
    """The lines of gitlab.yml."""
    archive = packed(program, made)
    good = check(told, "gitlab", lambda it: gitlab(program, it, archive), made)
    (good.at / "notes").write_text(json.dumps([{"id": 7, "body": "another"}, {"id": 8, "body": good.body()}]))
    tell(told, "gitlab: a new comment, and then the same one", gitlab(program, good, archive) == 0, good.log)
    comments = re.findall(r"--request (\w+) .*/merge_requests/12/notes(\S*)\n", good.said())
    told.same("gitlab: its calls", [("POST", ""), ("PUT", "/8")], comments)
    before = good.said()
    status, after = gitlab(program, good, archive, ""), good.said()[len(before):]
    tell(told, "gitlab: without a token it sends nothing", status == 0 and "--request" not in after, after)
    other = made / "other.tar.gz"
    other.write_bytes(archive.read_bytes() + b"\0")
    lines = "\n".join(value_of(program, "gitlab.yml")["rehearse"]["before_script"]).replace("/tmp/", f"{made}/")
    ran = Repository(made / "sum", "3m").run(lines, other, SHA256=hashlib.sha256(archive.read_bytes()).hexdigest())
    tell(told, "an archive with another sum", ran[0] != 0, ran[1])


def part_of(function: Callable[[Report, Program, Path], None]) -> report.Part:
    """A part that runs in a folder of its own."""
    def part(told: Report, programs: Programs) -> None:
        with tempfile.TemporaryDirectory(prefix="steps-") as made:
            function(told, programs["am_rehearse"], Path(made))
    return part


PARTS = {"github": part_of(on_github), "gitlab": part_of(on_gitlab)}

if __name__ == "__main__":
    report.main(__file__, PARTS, ("am_rehearse",), __doc__)

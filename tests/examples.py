#!/usr/bin/env python3
"""Runs the examples of the documents, and compares the output with what they show.

    examples.py PROGRAM..

The examples call the programs by name. An example is a ```console block of a document. Its `$ COMMAND` lines are run
one after another in a directory of its own, and the lines after each command are its expected output. `$ cat FILE` of a
missing file creates it, with the content shown.

The directory of an example that calls git is a repository. Its commits are by the authors that the first
`$ git log --format='%an <%ae>'` of the document shows, the latest first. Each `run: COMMAND` of a ```yaml block is also
run in such a repository, at a merge, as in a pull request. There it may find something, but nothing may fail.
"""
import os
import re
import subprocess
import sys
import tempfile
from pathlib import Path

DOCUMENTS = ["README.md", "docs/VERIFY.md"]
BLOCK = re.compile(r"^```console\n(.*?)^```$", re.MULTILINE | re.DOTALL)
YAML = re.compile(r"^```yaml\n(.*?)^```$", re.MULTILINE | re.DOTALL)
RUN = re.compile(r"^ *run: (.*)$", re.MULTILINE)
AUTHORS = re.compile(r"^\$ git log --format='%an <%ae>'\n((?:[^$`].*\n)*)", re.MULTILINE)
# a script that an example shows
SCRIPT = re.compile(r"^\$ cat ([a-z][\w-]*)\n(#!(?:[^$`].*\n)*)", re.MULTILINE)
# a pull request without a line for its author
MERGE = """git switch -qc topic && git commit -q --allow-empty -m topic --author 'Joe <JOE@example.com>' &&
git switch -q main && git merge -q --no-ff -m merge topic && echo > .mailmap"""
# no settings of this machine, and an author for `git commit`
GIT = {"GIT_CONFIG_GLOBAL": os.devnull, "GIT_CONFIG_SYSTEM": os.devnull, "GIT_AUTHOR_NAME": "Jane Doe",
       "GIT_AUTHOR_EMAIL": "jane@example.com", "GIT_COMMITTER_NAME": "c", "GIT_COMMITTER_EMAIL": "c@c"}


def steps(block):
    """The commands of an example, each with its expected output."""
    parts = re.split(r"^\$ (.*)\n", block, flags=re.MULTILINE)
    return list(zip(parts[1::2], parts[2::2]))


def run(command, status, folder, path):
    """Returns a command's output and status; `status` is that of the command before it."""
    done = subprocess.run(
        ["bash", "-c", f"(exit {status}); {command}"],
        cwd=folder,
        env={**os.environ, **GIT, "PATH": path},
        stdout=subprocess.PIPE,
        stderr=subprocess.STDOUT,
    )
    return done.stdout.decode(), done.returncode


def make_repository(folder, authors):
    """Makes a repository with a commit by each of the authors, the latest first."""
    commits = "".join(
        f"commit refs/heads/main\nauthor {author} {number} +0000\ncommitter c <c@c> {number} +0000\ndata 1\nx\n"
        for number, author in enumerate(reversed(authors))
    )
    for words in (["init", "-q", "-b", "main"], ["fast-import", "--quiet"]):
        subprocess.run(["git", *words], cwd=folder, env={**os.environ, **GIT}, input=commits.encode(), check=True)


def differences(block, path, authors):
    """For each command of an example how its output differs, or an empty text."""
    with tempfile.TemporaryDirectory() as folder:
        status = 0
        if any("git " in command for command, _ in steps(block)):
            make_repository(folder, authors)
        for command, shown in steps(block):
            written = re.fullmatch(r"cat (\S+)", command)
            if written and not Path(folder, written[1]).exists():
                Path(folder, written[1]).write_text(shown)
                status = 0
                yield ""
                continue
            printed, status = run(command, status, folder, path)
            yield "" if printed == shown else f"$ {command}\n{printed}and not\n{shown}"


def failure(command, document, path, authors):
    """How a command of the YAML of a document fails, or an empty text."""
    with tempfile.TemporaryDirectory() as folder:
        make_repository(folder, authors)
        for name, text in SCRIPT.findall(document):
            Path(folder, name).write_text(text)
        printed, status = run(f"{MERGE} && {{ {command}; }}", 0, folder, path)
    fails = status > 1 or re.search("^(mailmap_verify|bash|fatal)", printed, re.MULTILINE)
    return f"{command}: status {status}\n{printed}" if fails else ""


def results(document, path):
    """For each command of a document what is wrong, or an empty text."""
    authors = "".join(AUTHORS.findall(document)[:1]).splitlines()
    for command in RUN.findall("".join(YAML.findall(document))):
        yield failure(command, document, path, authors)
    for block in BLOCK.findall(document):
        yield from differences(block, path, authors)


def main():
    folders = [str(Path(program).resolve().parent) for program in sys.argv[1:]]
    path = ":".join([*folders, os.environ["PATH"]])
    failed = count = commands = 0
    for name in DOCUMENTS:
        document = (Path(__file__).parent.parent / name).read_text()
        blocks = BLOCK.findall(document)
        if sum(len(steps(block)) for block in blocks) != len(re.findall(r"^\$ ", document, re.MULTILINE)) or not blocks:
            sys.exit(f"{name}: a command outside of a block ```console, or none at all")
        count += len(blocks)
        for result in results(document, path):
            commands += 1
            failed += result != ""
            print(f"{name}: {result}\n" if result else "", end="")
    print(f"{count} blocks of {len(DOCUMENTS)} documents")
    print(f"examples: {commands - failed} passed, {failed} failed")
    sys.exit(1 if failed else 0)


main()

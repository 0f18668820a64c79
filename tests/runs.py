"""Runs a program and compares its status and every byte of its output with what is expected."""
import subprocess

passed = failed = 0


def run(program, words, stdin=b""):
    done = subprocess.run([program, *words], input=stdin, capture_output=True, timeout=120)
    return done.returncode, done.stdout, done.stderr


def wants(what, done, status, printed, said=b""):
    global passed, failed
    if done == (status, printed, said):
        passed += 1
    else:
        failed += 1
        print(f"{what}: {done[0]} {done[1][:400]} {done[2][:400]}\n    and not {status} {printed[:400]} {said[:400]}")

"""oFono's source, and its multiplexer and client (ofono.c) built of it."""
import os
import pathlib
import subprocess

HERE = pathlib.Path(__file__).resolve().parent
PARTS = ["gatmux", "gatchat", "gatsyntax", "gatresult", "gatutil", "gattty", "gatio", "ringbuffer", "gsm0710"]


def fetch(folder):
    """oFono's source, by an apt that has nothing of the machine's but its keys."""
    lists = folder / "lists"
    (lists / "partial").mkdir(parents=True)
    keys = "/usr/share/keyrings/debian-archive-keyring.gpg"
    (folder / "sources").write_text(f"deb-src [signed-by={keys}] http://deb.debian.org/debian bookworm main\n")
    apt = ["apt-get", "-q", "-o", f"Dir::Etc::sourcelist={folder}/sources", "-o", "Dir::Etc::sourceparts=/dev/null",
           "-o", f"Dir::State::lists={lists}", "-o", f"Dir::Cache={folder}"]
    for words in ["update"], ["source", "ofono=1.31-3"]:
        subprocess.run([*apt, *words], cwd=folder, stdout=subprocess.DEVNULL, stderr=subprocess.DEVNULL, timeout=120, check=True)
    return folder / "ofono-1.31"


def build(source, folder):
    code = source / "gatchat"
    glib = subprocess.run(["pkg-config", "--cflags", "--libs", "glib-2.0"], capture_output=True, text=True, check=True).stdout.split()
    compiler, program = os.environ.get("CC", "cc"), folder / "ofono"
    for name in PARTS:
        subprocess.run([compiler, "-O2", "-w", f"-I{code}", *glib[:-1], "-c", code / f"{name}.c", "-o", folder / f"{name}.o"], check=True)
    parts = [folder / f"{name}.o" for name in PARTS]
    subprocess.run([compiler, "-O2", "-Wall", "-Wextra", f"-I{code}", HERE / "ofono.c", *parts, *glib, "-o", program], check=True)
    return program

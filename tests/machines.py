"""Plays on many machines (examples/on_many_machines.sh): joined they are one play, by parallel here, by ssh, and by hand as Slurm would."""

import getpass
import os
import shutil
import socket
import subprocess
import time

import films

# Formats, words of a play, and into how many ranges it is cut.
CUT = [
    ("ppm", "--from 1000 --to 3000 --step 70 --size 64x36", 4),
    ("pam", "--from 5003 --to 7004 --rate 24000/1001 --size 64x36", 3),
    ("rgba", "--from=4500 --to=6500 --rate=30000/1001 --size=64x36 --renderers 2", 50),
    ("rgba", "--from 0 --to 7000 --rate 7 --size 64x36", 5),
    ("rgba", "--from 4321 --frames 49 --rate 24000/1001 --size 64x36", 3),
    ("ppm", "--frames=20 --from 900 --step 150 --size 64x36", 7),
    ("rgba", "--from 5000 --to 5000 --rate 25 --size 64x36", 5),
]
NAMES = ["dialogue.ass", "letters.ttf"]
VIDEO = f"--from 4004 --to 8008 --rate {films.RATE} --size {films.SIZE}".split()


def many(given, *words, env=None):
    """What the script says where it fails."""
    ask = ["bash", f"{given.top}/examples/on_many_machines.sh", "-p", given.program, *words]
    done = subprocess.run(ask, cwd=given.room, env=env, stdin=subprocess.DEVNULL, capture_output=True, timeout=600)
    return done.stderr.decode(errors="replace") if done.returncode else ""


def made(given, name):
    """A file that was made, which is taken away."""
    if not os.path.exists(f"{given.room}/{name}"):
        return None
    with open(f"{given.room}/{name}", "rb") as it:
        data = it.read()
    os.remove(f"{given.room}/{name}")
    return data


def one(given, *words):
    """The images of one play."""
    return subprocess.run([given.program, "play", *words], cwd=given.room, stdin=subprocess.DEVNULL, capture_output=True, timeout=600).stdout


def is_one_play(score, given, logins, format_, words, ranges, env=None):
    words = [*words.split(), "--format", format_, *NAMES]
    said = many(given, "-S", logins, "-n", str(ranges), f"many.{format_}", *words, env=env)
    found = made(given, f"many.{format_}")
    left = os.path.exists(f"{given.room}/many.{format_}.parts")
    score.check(found == one(given, *words) and not left, f"{' '.join(words)} in {ranges} ranges by {logins} are other images: {said}")


def here(score, given):
    """Images by four plays at once on this machine."""
    for format_, words, ranges in CUT:
        is_one_play(score, given, "4/:", format_, words, ranges)
    said = many(given, "-n", "2", "many.ppm", *"--from 0 --to 9 --step 1 --size 4x3".split(), "no.ass", "dot.bdf")
    left = [it for it in os.listdir(given.room) if it.startswith("many.")]
    score.check("no such file: no.ass" in said and not left, f"of no script the plays say {said}")


def array(score, given):
    """The tasks of an array of Slurm, one behind another, from the last to the first, and the job that joins them."""
    words = [*"array.rgba --from 5003 --to 7004 --rate 24000/1001 --size 64x36 --format rgba".split(), *NAMES]
    task = ["bash", f"{given.top}/examples/on_many_machines.sbatch", "-p", given.program, *words]
    os.makedirs(f"{given.room}/examples", exist_ok=True)
    shutil.copy(f"{given.top}/examples/on_many_machines.sh", f"{given.room}/examples")
    for at in reversed(range(4)):
        env = {**os.environ, "SLURM_ARRAY_TASK_ID": str(5 + at), "SLURM_ARRAY_TASK_MIN": "5", "SLURM_ARRAY_TASK_COUNT": "4"}
        done = subprocess.run(task, cwd=given.room, env=env, capture_output=True, timeout=600)
        score.check(done.returncode == 0, f"task {at} of an array: {done.stderr.decode(errors='replace')}")
    said = many(given, "-j", "-n", "4", *words)
    score.check(made(given, "array.rgba") == one(given, *words[1:]), f"the tasks of an array make other images: {said}")


def videos(score, given):
    """A video with alpha is one play; a film with subtitles is the one that one pass makes, where nothing is lost."""
    raw = ["-f", "rawvideo", "-pix_fmt", "rgba", "-"]
    said = many(given, "-n", "3", "many.mkv", *VIDEO, *NAMES)
    images = one(given, *VIDEO, "--format", "rgba", *NAMES)
    score.check(films.ffmpeg(given.room, "-i", "many.mkv", *raw) == images, f"a video of three plays shows something else: {said}")
    source = ["-f", "lavfi", "-i", f"testsrc2=size={films.SIZE}:rate={films.RATE}", "-f", "lavfi", "-i", "sine", "-t", "9"]
    films.ffmpeg(given.room, *source, "-c:v", "mpeg4", "-q:v", "2", "long.mp4")
    form = [*films.FORMATS["rgba"], "-framerate", films.RATE, "-i", "-", "-filter_complex", "overlay=eof_action=pass"]
    wanted = films.ffmpeg(given.room, "-ss", "4.004", "-t", "4.004", "-i", "long.mp4", *form, *raw, data=images)
    said = many(given, "-n", "3", "-i", "long.mp4", "-e", "-c:v ffv1", "over.mkv", *VIDEO, *NAMES)
    holds = len(wanted) == len(images) and films.ffmpeg(given.room, "-i", "over.mkv", *raw) == wanted
    score.check(holds, f"a film that three machines lay subtitles over shows something else: {said}")
    said = many(given, "-n", "3", "-i", "long.mp4", "over.mp4", *VIDEO, *NAMES)
    show = "ffprobe -v error -show_entries packet=codec_type,pts_time -of csv=p=0".split()
    packets = subprocess.run([*show, "over.mp4"], cwd=given.room, capture_output=True, encoding="utf-8").stdout.split()
    times = sorted(float(it.split(",")[1]) for it in packets if it.startswith("video"))
    exact = all(abs(it - 1001 * at / 24000) < 1e-5 for at, it in enumerate(times))
    score.check(len(times) == 96 and exact and len(packets) > 150, f"a film by three machines has {len(times)} frames: {said}")


def login(given):
    """A server of ssh of the test's own at this machine: the process, and how parallel reaches it."""
    server = shutil.which("sshd", path=f"{os.environ['PATH']}:/usr/sbin:/sbin")
    if not server or not shutil.which("ssh") or not shutil.which("ssh-keygen"):
        return None, "there is no server of ssh here"
    folder = f"{given.room}/ssh"
    os.mkdir(folder, 0o700)
    for name in ("host", "user"):
        subprocess.run(["ssh-keygen", "-q", "-t", "ed25519", "-N", "", "-f", f"{folder}/{name}"], check=True)
    with socket.socket() as it:
        it.bind(("127.0.0.1", 0))
        port = it.getsockname()[1]
    settings = {
        "ListenAddress": f"127.0.0.1:{port}",
        "HostKey": f"{folder}/host",
        "AuthorizedKeysFile": f"{folder}/user.pub",
        "StrictModes": "no",
        "UsePAM": "no",
        "PidFile": "none",
    }
    if os.geteuid() == 0:
        os.makedirs("/run/sshd", exist_ok=True)
    words = [it for pair in settings.items() for it in ("-o", "=".join(pair))]
    process = subprocess.Popen([server, "-D", "-f", "/dev/null", *words], stdin=subprocess.DEVNULL, stdout=subprocess.DEVNULL, stderr=subprocess.DEVNULL)
    ssh = f"ssh -F none -p {port} -i {folder}/user -o UserKnownHostsFile={folder}/known -o StrictHostKeyChecking=no -o LogLevel=ERROR -o BatchMode=yes"
    for _ in range(50):
        if subprocess.run([*ssh.split(), f"{getpass.getuser()}@127.0.0.1", "true"], stdin=subprocess.DEVNULL, capture_output=True).returncode == 0:
            return process, ssh
        time.sleep(0.1)
    process.terminate()
    process.wait()
    return None, "no server of ssh can be begun here"


def logins(score, given):
    """Two logins of this machine, by ssh."""
    process, ssh = login(given)
    if not process:
        print(f"machines: {ssh}, so other machines aren't tried")
        return
    try:
        user = getpass.getuser()
        env = {**os.environ, "PARALLEL_SSH": ssh}
        for format_, words, ranges in CUT[:3]:
            is_one_play(score, given, f"2/{user}@127.0.0.1,2/{user}@localhost", format_, words, ranges, env)
    finally:
        process.terminate()
        process.wait()


def machines(score, given):
    gnu = shutil.which("parallel") and b"GNU parallel" in subprocess.run(["parallel", "--version"], capture_output=True).stdout
    array(score, given)
    if not gnu:
        print("machines: there is no GNU parallel here, so plays aren't shared out")
        return
    here(score, given)
    logins(score, given)
    if shutil.which("ffmpeg") and shutil.which("ffprobe"):
        videos(score, given)
    else:
        print("machines: there is no ffmpeg here, so no videos are joined")

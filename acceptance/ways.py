"""How a case runs the program. Each way gets the command, the script and a time limit, and returns the exit status, what was
printed, and a complaint or None."""
import fcntl, os, subprocess, tempfile, threading, time

PIPE_BYTES = 4096

def file_of(script):
    """An open file with the script, at its beginning."""
    file = tempfile.TemporaryFile()
    file.write(script)
    file.flush()
    os.lseek(file.fileno(), 0, os.SEEK_SET)
    return file

def under(setting, command):
    """The command, started by a shell that sets something first."""
    return ["sh", "-c", f'{setting}; exec "$@"', "sh", *command]

def ended(child, seconds):
    """The child's exit status, and its end by force where it has none in time."""
    try:
        return child.wait(seconds), None
    except subprocess.TimeoutExpired:
        child.kill()
        child.wait()
        return None, f"it had not ended after {seconds:g} seconds"

def into_file(command, given, seconds, errors=subprocess.DEVNULL, **how):
    """Runs with the output in a file, and what comes on standard error in another one, where that is given."""
    with tempfile.TemporaryFile() as out:
        child = subprocess.Popen(command, stdin=given, stdout=out, stderr=errors, **how)
        status, why = ended(child, seconds)
        out.seek(0)
        return status, out.read(), why

def plain(command, script, seconds):
    with file_of(script) as given:
        return into_file(command, given, seconds)

def keeps_input(command, script, seconds):
    """From a file and from a pipe: all bytes of the input are still there afterwards."""
    with file_of(script) as given:
        status, out, why = into_file(command, given, seconds)
        taken = os.lseek(given.fileno(), 0, os.SEEK_CUR)
    if why or taken:
        return status, out, why or f"it took {taken} bytes of the file that was its input"
    ours, theirs = os.pipe()
    few = script[:PIPE_BYTES]
    os.write(theirs, few)
    os.close(theirs)
    status, out, why = into_file(command, ours, seconds)
    left = len(os.read(ours, len(few) + 1))
    os.close(ours)
    return status, out, why or (f"it took {len(few) - left} bytes of the pipe that was its input" if left < len(few) else None)

def slow_input(command, script, seconds):
    """The input comes a few bytes at a time."""
    ours, theirs = os.pipe()
    with tempfile.TemporaryFile() as out:
        child = subprocess.Popen(command, stdin=ours, stdout=out, stderr=subprocess.DEVNULL)
        os.close(ours)
        for at in range(0, len(script), 7):
            os.write(theirs, script[at : at + 7])
            time.sleep(0.002)
        os.close(theirs)
        status, why = ended(child, seconds)
        out.seek(0)
        return status, out.read(), why

def closed_input(command, script, seconds):
    return into_file(under("exec 0<&-", command), subprocess.DEVNULL, seconds)

def folder_input(command, script, seconds):
    """Reading a folder fails at its first call."""
    folder = os.open("/", os.O_RDONLY)
    try:
        return into_file(command, folder, seconds)
    finally:
        os.close(folder)

def full_device(command, script, seconds):
    with file_of(script) as given, open("/dev/full", "wb") as full:
        child = subprocess.Popen(command, stdin=given, stdout=full, stderr=subprocess.DEVNULL)
        status, why = ended(child, seconds)
        return status, b"", why

def closed_output(command, script, seconds):
    with file_of(script) as given:
        return into_file(under("exec 1>&-", command), given, seconds)

def short_file(command, script, seconds):
    """The output is a file of at most 512 bytes: the write that crosses its end is a short one, and the next one fails."""
    with file_of(script) as given:
        return into_file(under("trap '' XFSZ; ulimit -f 1", command), given, seconds)

def small_pipe():
    ours, theirs = os.pipe()
    fcntl.fcntl(theirs, fcntl.F_SETPIPE_SZ, PIPE_BYTES)
    return ours, theirs

def started(command, script, theirs, seconds):
    """Starts with the output in a pipe, and ends it by force in time. A pipe that nobody reads is an error of the write, and ends
    nobody by a signal."""
    with file_of(script) as given:
        child = subprocess.Popen(command, stdin=given, stdout=theirs, stderr=subprocess.DEVNULL, restore_signals=False)
    os.close(theirs)
    timer = threading.Timer(seconds, child.kill)
    timer.daemon = True
    timer.start()
    return child

def slow_reader(command, script, seconds):
    """The output is a small pipe, of which a few bytes are taken at a time."""
    ours, theirs = small_pipe()
    child = started(command, script, theirs, seconds)
    out = b""
    while piece := os.read(ours, 41):
        out += piece
        time.sleep(0.0005)
    os.close(ours)
    status, why = ended(child, seconds)
    return status, out, why

def closed_pipe(command, script, seconds):
    """The pipe of the output is closed after its first bytes."""
    ours, theirs = small_pipe()
    child = started(command, script, theirs, seconds)
    out = os.read(ours, 3)
    os.close(ours)
    status, why = ended(child, seconds)
    return status, out, why

def unread_pipe(command, script, seconds):
    """The pipe of the output is closed from the beginning."""
    ours, theirs = small_pipe()
    os.close(ours)
    child = started(command, script, theirs, seconds)
    status, why = ended(child, seconds)
    return status, b"", why

def little_memory(command, script, seconds):
    """It may have 192 MiB of addresses."""
    with file_of(script) as given:
        return into_file(under("ulimit -v 196608", command), given, seconds)

def processor_seconds(child):
    with open(f"/proc/{child.pid}/schedstat") as file:
        return int(file.read().split()[0]) / 1e9

def timed(command, script, seconds):
    """Runs with the output in a pipe. Gives the status, the output, and the program's own processor seconds when the first bytes came
    and at the end."""
    ours, theirs = os.pipe()
    child = started(command, script, theirs, seconds)
    out = [os.read(ours, 1 << 20)]
    first = processor_seconds(child)
    while out[-1]:
        out.append(os.read(ours, 1 << 20))
    os.close(ours)
    _, status, usage = os.wait4(child.pid, 0)
    child.returncode = os.waitstatus_to_exitcode(status)
    return child.returncode, b"".join(out), first, usage.ru_utime + usage.ru_stime

def early(command, script, seconds):
    """The first answers come in the first half of the run, by the program's own processor time. What a run of the first two phases
    alone takes, the making of the servers, is not counted."""
    front = b"wait\n".join(script.split(b"wait\n")[:2])
    _, _, _, start = timed(command, front, seconds)
    status, out, first, whole = timed(command, script, seconds)
    late = first - start > (whole - start) / 2
    return status, out, f"its first bytes came after {first:.3f} of {whole:.3f} processor seconds, and its start takes {start:.3f}" if late else None

"""The scans that bench/speed/run measures with and bench/speed/count counts with."""
import subprocess

ANTIGENS = b"=\\979999999999924799"
DONATION = b"=W00002112345600"
FIVE = b"=+05000=W00002112345600=%5100=<E0178VBb&>0203661330&(N0008"


def made(command, count, accepted):
    """Of so many lines of the bench's generator those that the second program accepts, or the others. The command runs a
    program of bench/ by its name."""
    lines = subprocess.run([*command("lines"), "1", str(count)], stdout=subprocess.PIPE, check=True).stdout
    told = subprocess.run(command("second"), input=lines, stdout=subprocess.PIPE, check=True).stdout
    pairs = zip(lines.split(b"\n"), told.split(b"\n"))
    return [line for line, answer in pairs if len(line) < 600 and answer and (answer.split()[1] == b"0") == accepted]


def seven(command):
    """Lists of scans by their names."""
    return {"a lone 001": [DONATION], "an 002": [b"=%6410"], "a pair": [DONATION + b"=%5100"],
            "a compound of five kinds": [FIVE], "a compound of sixteen 012": [b"=+16000" + 16 * ANTIGENS],
            "valid lines of the generator": made(command, 3000, True)[:300],
            "damaged lines of it": made(command, 3000, False)[:300]}

"""Intel HEX texts by others' programs: binutils' objcopy and Debian's srec_cat. A piece is an address and the bytes from there on; in the folder where the
programs run, the bytes of piece i are the file piece<i>."""
import os
import subprocess
import tempfile

# objcopy writes a record of type 02 for addresses from the first on and below the second.
SEGMENT, MIB = 1 << 16, 1 << 20

def run(pieces, *commands):
    """What the last of the commands writes to the file `text`."""
    with tempfile.TemporaryDirectory() as folder:
        for i, (_, data) in enumerate(pieces):
            with open(os.path.join(folder, f"piece{i}"), "wb") as file:
                file.write(data)
        for command in commands:
            subprocess.run(command, cwd=folder, check=True)
        with open(os.path.join(folder, "text"), "rb") as file:
            return file.read()


def from_binary(pieces, form, out, *options):
    """objcopy's command that puts the pieces into a file of this form. The first one is the section .data of a binary file."""
    command = ["objcopy", "-I", "binary", "-O", form, f"--change-section-address=.data={pieces[0][0]}", "--set-section-flags=.data=alloc,load,contents"]
    for i, (address, _) in list(enumerate(pieces))[1:]:
        command += [f"--add-section=.{i}=piece{i}", f"--set-section-flags=.{i}=alloc,load,contents", f"--change-section-address=.{i}={address}"]
    return [*command, *options, "piece0", out]


def objcopy(pieces, *options):
    return run(pieces, from_binary(pieces, "ihex", "text", *options))


def joined(pieces, *options):
    """srec_cat's command that puts the pieces together; the options say what for."""
    command = ["srec_cat"]
    for i, (address, _) in enumerate(pieces):
        command += [f"piece{i}", "-binary", "-offset", str(address)]
    return [*command, *options]


def srec_cat(pieces, *options):
    return run(pieces, joined(pieces, *options, "-o", "text", "-intel"))

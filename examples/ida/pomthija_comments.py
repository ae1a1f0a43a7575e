"""Sets the verdicts of `pomthija list FILE --json` as comments in IDA (File, Script file). Not run here."""
import json

import ida_bytes
import ida_kernwin


def loaded(address):
    """The place of a file's address: IDA may have loaded the file elsewhere."""
    return int(address, 16) + shift


path = ida_kernwin.ask_file(False, "*.json", "The output of pomthija list --json")
shift = ida_kernwin.ask_long(0, "Address in IDA minus address in the file (0 if they are the same)")
with open(path) as text:
    listing = json.load(text)
for branch in listing["branches"]:
    words = "%s taken, by %s" % (branch["verdict"], ", ".join(branch["by"]))
    ida_bytes.set_cmt(loaded(branch["address"]), words, False)
for dead in listing["dead"]:
    ida_bytes.set_cmt(loaded(dead["from"]), "dead up to %#x" % loaded(dead["to"]), False)
print("%d branches, %d dead ranges" % (len(listing["branches"]), len(listing["dead"])))

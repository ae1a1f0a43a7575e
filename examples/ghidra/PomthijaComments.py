# Sets the verdicts of `pomthija list FILE --json` as comments in Ghidra. Not run here.
# @category Analysis
# @runtime Jython
import json


def loaded(address):
    """The place of a file's address: Ghidra may have loaded the file elsewhere."""
    return toAddr(int(address, 16) + shift)


path = askFile("The output of pomthija list --json", "Load").getPath()
with open(path) as text:
    listing = json.load(text)
shift = askLong("Distance", "Address in Ghidra minus address in the file (0 if they are the same)")
for branch in listing["branches"]:
    setEOLComment(loaded(branch["address"]), "%s taken, by %s" % (branch["verdict"], ", ".join(branch["by"])))
for dead in listing["dead"]:
    setPreComment(loaded(dead["from"]), "dead up to %s" % loaded(dead["to"]))
print("%d branches, %d dead ranges" % (len(listing["branches"]), len(listing["dead"])))

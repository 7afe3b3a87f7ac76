"""What there is beside the commands build, ask, replay, serve and trial, and what of it the program has: today all.

The reference knows all that is named here. It does what the program does: a feature counts where its name is in HAS. One that the
reference gets first stands in `ALL` alone until the program has it, and then in `HERE` too. To try it before, name it, or `all`:

    COMPLETE_HAS=all reference/try.py reference/complete.py merge 200
"""
import os

ALL = (
    "weights",      # the weights line of a collection, and the field of weights in an index file
    "version 2",    # index files with the bounds of their blocks: written, and both versions read
    "upgrade",      # the command
    "import",       # the command, for csv and jsonl; needs weights
    "excerpts",     # the command
    "merge",        # the command
    "live",         # the command
)
HERE = {"weights", "version 2", "upgrade", "import", "excerpts", "merge", "live"}

named = os.environ.get("COMPLETE_HAS", ",".join(HERE))
HAS = set(ALL) if named == "all" else set(filter(None, named.split(",")))
if not HAS <= set(ALL):
    raise SystemExit(f"COMPLETE_HAS: {', '.join(sorted(HAS - set(ALL)))}: none of {', '.join(ALL)}")

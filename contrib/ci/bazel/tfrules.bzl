"""Lints the Terraform modules of a repository in parts, each an action of its own. docs/SCALE.md says when that is of use.

An action has the files of its part alone, so Bazel runs those parts again in which a file has changed, come or gone, and
keeps the reports of all others. A folder is in one part with all its files, since what one file declares another one uses.
The part goes by the bytes of the folder's name, as `tfrules-all --shard` has it: so `tfrules-all --shard 3/10` at the top of
the repository says what the action of part 3 says, if the repository is one package.
"""

# The letters in which Bazel has the bytes of names, from the blank on.
_LETTERS = (
    " !\"#$%&'()*+,-./0123456789:;<=>?@ABCDEFGHIJKLMNOPQRSTUVWXYZ[\\]^_`abcdefghijklmnopqrstuvwxyz{|}~\177" +
    "\200\201\202\203\204\205\206\207\210\211\212\213\214\215\216\217\220\221\222\223\224\225\226\227" +
    "\230\231\232\233\234\235\236\237\240\241\242\243\244\245\246\247\250\251\252\253\254\255\256\257" +
    "\260\261\262\263\264\265\266\267\270\271\272\273\274\275\276\277\300\301\302\303\304\305\306\307" +
    "\310\311\312\313\314\315\316\317\320\321\322\323\324\325\326\327\330\331\332\333\334\335\336\337" +
    "\340\341\342\343\344\345\346\347\350\351\352\353\354\355\356\357\360\361\362\363\364\365\366\367" +
    "\370\371\372\373\374\375\376\377"
)
_BYTES = {letter: 32 + number for number, letter in enumerate(_LETTERS.elems())}

def _sum_of(name):
    """The sum that decides the part of a name."""
    total = 0
    for letter in name.elems():
        if letter not in _BYTES:
            fail("%r has a control character" % name)
        total = (total * 31 + _BYTES[letter]) % 4294967291
    return total

def _is_passed_over(path):
    """Whether a walk of tfrules-all passes over a file, or over a folder above it."""
    for part in path.split("/"):
        if part.startswith(".") or part.endswith("~"):
            return True
        if len(part) > 1 and part.startswith("#") and part.endswith("#"):
            return True
    return False

def _quoted(word):
    """A word as the shell takes it, in a text in which Bazel replaces `$`."""
    return "'" + word.replace("'", "'\\''").replace("$", "$$") + "'"

# A file stands for its module, so one name of each is enough. If one fails, the action fails, and all messages are in the
# log. The last line counts the modules: if the number isn't that of the folders, one was passed over.
_COMMAND = """
status=0
said=$$(printf '%s\\0' {names} | $(execpath {tool}) --null --shard {part}/{parts} {options} 2>&1 >$@) || status=$$?
case $$status:$$said in
  0:*' in {count}' | 0:*' of {count}') printf '%s\\n' "$$said" >>$@; exit ;;
  0:*) status=1 said="$$said"'
part {part} of {parts} has {count}, and some were passed over' ;;
esac
cat $@ >&2
printf '%s\\n' "$$said" >&2
exit $$status
"""

def tfrules_parts(name, srcs, parts = 10, options = [], tool = "@tffmt//:tfrules-all"):
    """A target NAME_K for each part, whose output NAME_K.txt has its report, and NAME for all of them.

    Args:
      name: of all parts together.
      srcs: the files, as `glob` gives them.
      parts: how many there are to be.
      options: further words of tfrules-all, as in `["--rules", "all"]`.
      tool: the program.
    """
    above = native.package_name() + "/" if native.package_name() else ""
    folders = {}
    for file in srcs:
        if not _is_passed_over(file):
            folders.setdefault(above + file[:file.rfind("/") + 1], []).append(file)
    shares = [[] for _ in range(parts)]
    for folder in sorted(folders):
        shares[_sum_of(folder) % parts].append(folders[folder])
    for number, share in enumerate(shares):
        native.genrule(
            name = "%s_%d" % (name, number + 1),
            srcs = [file for files in share for file in files],
            outs = ["%s_%d.txt" % (name, number + 1)],
            cmd = _COMMAND.format(
                count = "1 module" if len(share) == 1 else "%d modules" % len(share),
                names = " ".join([_quoted(above + files[0]) for files in share]),
                options = " ".join([_quoted(word) for word in options]),
                part = number + 1,
                parts = parts,
                tool = tool,
            ) if share else "touch $@",
            tools = [tool],
        )
    native.filegroup(
        name = name,
        srcs = ["%s_%d" % (name, number + 1) for number in range(parts)],
    )

"""CSS by Bazel, with nothing but the program `sassw`: one action for each entry, which any cache and any worker may take."""

# The files stand as links in Bazel's sandbox, and `once` follows none: so they are copied to where it reads. A fault is the line that stands
# in the place of CSS then; it is shown, with the line of the sheet.
_COMMAND = """
room=$$(mktemp -d) && trap 'rm -rf "$$room"' EXIT || exit 2
for file in $(SRCS); do
    mkdir -p "$$room/$$(dirname "$$file")" && cp -L "$$file" "$$room/$$file" || exit 2
done
$(execpath {program}) once "$$room/{folder}" {words} > $@ || {{
    status=$$?
    if read -r _ code path from to < $@; then
        echo "{folder}/$$path:$$from: fault $$code"
        sed -n "$${{from%:*}}p" "$$room/{folder}/$$path"
    fi >&2
    exit $$status
}}
"""

def sassw_css(name, folder, entry, srcs, out = None, load_paths = [], program = "//:sassw"):
    """One entry's CSS.

    Args:
      name: the target's name.
      folder: the folder of the sheets, below this package.
      entry: the sheet to compile, in the folder.
      srcs: the files that the entry is made of: what `sassw-build --deps` tells, or all sheets of the folder by `glob`.
      out: the file to write; the entry's path with the extension `.css` where it is left out.
      load_paths: folders below the folder, or `.` for it.
      program: the target of the program.
    """
    where = "/".join([part for part in [native.package_name(), folder] if part])
    native.genrule(
        name = name,
        srcs = srcs,
        outs = [out or entry.rpartition(".")[0] + ".css"],
        tools = [program],
        cmd = _COMMAND.format(program = program, folder = where, words = " ".join([entry] + load_paths)),
    )

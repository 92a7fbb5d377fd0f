#!/bin/sh
# Gives what `acrun lint` prints to editors, by the settings that docs/editors.md shows, and looks at where they find each finding. It has to be
# where `acrun lint --json` has it, whose form is that of docs/formats.md.
#   run.sh PROGRAM
# Of vim, Emacs and Python, what is not there is not tried, and the script says so.
set -u
acrun=$(realpath "$1") && top=$(realpath "$(dirname "$0")/../..") || exit 2
work=$(mktemp -d) || exit 2
trap 'rm -rf "$work"' EXIT
cd "$work" || exit 2
wrong=0 tried=''
command -v python3 > /dev/null || { echo 'editors: skipped: there is no python3'; exit 77; }

while IFS= read -r row; do
    printf '%b' "${row#* }" > "${row%% *}.ac"
    printf '%s.ac\n' "${row%% *}" >> names
done < "$top/examples/lint/sources.txt"
cp -R "$top/examples/lint/package" package
# shellcheck disable=SC2046
"$acrun" lint $(cat names) package > text
# shellcheck disable=SC2046
"$acrun" lint --json $(cat names) package > json

# setting LANGUAGE: the block of docs/editors.md in this language.
setting() { sed -n "/^\`\`\`$1\$/,/^\`\`\`\$/p" "$top/docs/editors.md" | sed '1d;$d'; }
setting json > tasks.json

# Writes where each finding is to the file `found`, as FILE:LINE:COLUMN KIND, and looks at the form of both outputs.
cat > look.py << 'END'
import json, re
KEYS = ["file", "line", "column", "end_line", "end_column", "severity", "code", "message", "help"]
found = [json.loads(line) for line in open("json", encoding="utf-8")]
for it in found:
    assert list(it) == KEYS, it
    assert all(type(it[key]) is (int if key in KEYS[1:5] else str) for key in KEYS), it
    assert it["severity"] in ("error", "warning") and it["code"] and it["message"], it
    assert "\n" not in it["message"] and min(it["line"], it["column"]) >= 1, it
    assert (it["line"], it["column"]) <= (it["end_line"], it["end_column"]), it
with open("found", "w") as out:
    for it in found:
        out.write("{file}:{line}:{column} {severity}\n".format(**it))
(task,) = json.load(open("tasks.json"))["tasks"]
pattern = task["problemMatcher"]["pattern"]
with open("by-code", "w") as out:
    for line in open("text", encoding="utf-8", errors="replace"):
        it = re.search(pattern["regexp"], line.rstrip("\n"))
        if it:
            file, row, column, kind = (it[pattern[key]] for key in ("file", "line", "column", "severity"))
            out.write(f"{file}:{row}:{column} {kind}\n")
print(len(found))
END
number=$(python3 look.py) || { echo 'editors: lint --json has another form'; exit 1; }

# same NAME FILE: an editor found what lint found.
same() {
    tried="$tried${tried:+, }$1"
    cmp -s found "$2" || { wrong=1; echo "editors: $1 finds otherwise:"; diff found "$2" | head -n 10; }
}

same 'the expressions of VS Code' by-code
if vim -u NONE -N -es -c 'if has("quickfix") | qa! | else | cq | endif' < /dev/null > /dev/null 2>&1; then
    setting vim > setting.vim
    cat > ask.vim << 'END'
source setting.vim
let &errorformat = &l:errorformat
cgetfile text
let kinds = {'e': 'error', 'w': 'warning'}
let lines = []
for it in getqflist()
    call add(lines, bufname(it.bufnr) . ':' . it.lnum . ':' . it.col . ' ' . get(kinds, it.type, it.type))
endfor
call writefile(lines, 'by-vim')
qa!
END
    vim -u NONE -N -es -S ask.vim < /dev/null > vim.out 2>&1
    same vim by-vim
    # By the settings of its type of file, on a name with a blank
    mkdir -p bin vim/ftplugin "a b" && ln -sf "$acrun" bin/acrun && cp setting.vim vim/ftplugin/config.vim && cp macros-unknown.ac "a b/configure.ac"
    cat > make.vim << 'END'
set runtimepath^=vim
filetype plugin on
edit a\ b/configure.ac
silent make
call writefile(map(filter(getqflist(), 'v:val.valid'), '"macros-unknown.ac:" . v:val.lnum . ":" . v:val.col'), 'made')
qa!
END
    PATH=$work/bin:$PATH vim -u NONE -N -es -S make.vim < /dev/null > vim.out 2>&1
    sed -n 's/^\(macros-unknown.ac:.*\) .*/\1/p' found > wanted
    cmp -s wanted made || { wrong=1; echo 'editors: :make of vim finds otherwise:'; diff wanted made; }
else
    echo 'editors: there is no vim that reads errors, so it is not tried'
fi
if command -v emacs > /dev/null; then
    setting elisp > setting.el
    cat > ask.el << 'END'
(require 'compile)
(load-file "setting.el")
(let ((lines nil))
  (with-temp-buffer
    (insert-file-contents "text")
    (setq default-directory (file-name-as-directory (expand-file-name ".")))
    (compilation-mode)
    (compilation--ensure-parse (point-max))
    (goto-char (point-min))
    (while (not (eobp))
      (let ((message (get-text-property (point) 'compilation-message)))
        (when message
          (let ((place (compilation--message->loc message)))
            (push (format "%s:%d:%d %s" (caar (compilation--loc->file-struct place)) (compilation--loc->line place)
                          (compilation--loc->col place) (if (= (compilation--message->type message) 2) "error" "warning"))
                  lines))))
      (forward-line 1)))
  (with-temp-file "by-emacs" (dolist (line (nreverse lines)) (insert line "\n"))))
END
    emacs -Q --batch -l ask.el > emacs.out 2>&1 || tail -n 3 emacs.out
    same Emacs by-emacs
else
    echo 'editors: there is no Emacs, so it is not tried'
fi
[ "$wrong" = 0 ] && echo "editors: $number findings are where lint has them, by $tried"
exit "$wrong"

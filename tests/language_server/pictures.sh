#!/bin/sh
# Makes the pictures of docs/editors.md, from neovim and from Emacs in a terminal: tests/language_server/pictures.sh SERVER, at the
# top of the repository. SERVER is the absolute path of the program. Needs Debian's neovim, emacs-nox, elpa-lsp-mode, xterm, xvfb
# and imagemagick.
set -e
server=$1
top=$PWD
home=$(mktemp -d)
export DISPLAY=:77 HOME="$home" XDG_STATE_HOME="$home" TERM=xterm-256color LC_ALL=C.UTF-8
Xvfb :77 -screen 0 1400x420x24 >/dev/null 2>&1 &
display=$!
trap 'kill $display; rm -rf "$home"' EXIT
sleep 2

# picture NAME COLUMNSxROWS SECONDS WORDS..: the screen once the words have run for so long in a terminal
picture() {
    name=$1 size=$2 seconds=$3
    shift 3
    xterm -tn xterm-256color -geometry "$size" -fa 'DejaVu Sans Mono' -fs 10 -bg white -fg black -b 2 +sb -e "$@" >/dev/null 2>&1 &
    terminal=$!
    sleep "$seconds"
    import -window root -trim +repage -colors 32 -define png:compression-level=9 "$top/docs/$name.png"
    kill $terminal 2>/dev/null || true
    sleep 1
}

cat >"$home/faults.lua" <<END
vim.o.number = true
vim.o.background = "light"
local id = vim.lsp.start_client({ name = "rolgumzai", cmd = { "$server", "lsp" }, root_dir = vim.fn.getcwd() })
vim.lsp.buf_attach_client(0, id)
END
cp examples/faults.l "$home/faults.l"
picture editor-faults 150x8 20 nvim -u NONE -i NONE -n -c "luafile $home/faults.lua" "$home/faults.l"

cat >"$home/tokens.el" <<END
(setq load-path (append (file-expand-wildcards "/usr/share/emacs/site-lisp/elpa-src/*") load-path)
      lsp-keymap-prefix nil lsp-auto-guess-root t lsp-enable-file-watchers nil lsp-semantic-tokens-enable t
      lsp-modeline-code-actions-enable nil lsp-headerline-breadcrumb-enable nil lsp-diagnostics-provider :none
      lsp-lens-enable nil lsp-modeline-workspace-status-enable nil lsp-modeline-diagnostics-enable nil
      lsp-session-file "$home/session" inhibit-startup-screen t)
(menu-bar-mode -1)
(setq frame-background-mode 'light)
(mapc #'frame-set-background-mode (frame-list))
(require 'lsp-mode)
(require 'lsp-semantic-tokens)
(define-derived-mode shown-mode prog-mode "C by rules/c.l" (setq font-lock-defaults '(nil)))
(add-to-list 'lsp-language-id-configuration '(shown-mode . "c"))
(lsp-register-client
 (make-lsp-client :new-connection (lsp-stdio-connection '("$server" "lsp" "--rules" "$top/rules/c.l"))
                  :activation-fn (lambda (&rest _) t) :priority 10 :server-id 'rolgumzai))
(lsp-workspace-folders-add "$home")
(find-file "$home/sorted.c")
(shown-mode)
(lsp)
(run-with-timer 8 nil (lambda () (message nil)))
END
cp examples/sorted.c "$home/sorted.c"
picture editor-tokens 84x24 25 emacs -nw -Q -l "$home/tokens.el"

# What an interactive zsh completes a line to, with the functions of a folder, as completing.py asks: complete.zsh FOLDER LINE.
# A word a line.
zmodload zsh/zpty
zpty z zsh -f -i
zpty -w z "PROMPT= RPROMPT=; stty -echo; unsetopt zle_bracketed_paste; fpath=(${(q)1} \$fpath); autoload -Uz compinit; compinit -u -D"
zpty -w z 'compadd() { case " ${@[1,(i)(-|--)]}" in *" -"[OAD]" "*) builtin compadd "$@"; return ;; esac
typeset -a found; builtin compadd -A found "$@"; print -l -- "FOUND "$^found; builtin compadd "$@" }'
zpty -w z "zstyle ':completion:*' list-prompt ''; LISTMAX=1000; setopt no_list_beep; PROMPT=REA''DY"
# Once this prompt is shown the line editor reads the keys. Before that the terminal itself would take the last of them, and drop the line.
zpty -r -m z line '*READY*'
zpty -n -w z "$2"$'\t\x15'"echo DO''NE"$'\n'
zpty -r -m z line '*DONE*'
print -r -- "$line" | tr -d '\r' | grep -o 'FOUND [^ ]*' | cut -c 7- | sort -u

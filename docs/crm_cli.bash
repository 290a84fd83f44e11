# Completions for bash: source this file, or lay it into ~/.local/share/bash-completion/completions/crm_cli.
_crm_cli() {
    local word=${COMP_WORDS[COMP_CWORD]} first=${COMP_WORDS[1]-} last=${COMP_WORDS[COMP_CWORD-1]}
    COMPREPLY=()
    if [ "$COMP_CWORD" -eq 1 ]; then COMPREPLY=($(compgen -W 'orders check reason explain conflicts bounds dates when allen legacy join lines matrix certify verify convert sample help version' -- "$word")); return; fi
    if [ "$first $last" = 'certify certify' ]; then COMPREPLY=($(compgen -W 'orders classes matrix' -- "$word")); return; fi
    if [ "$first $last" = 'join join' ]; then COMPREPLY=($(compgen -W 'check orders reason convert' -- "$word")); return; fi
    if [ "$first $last" = 'help help' ]; then COMPREPLY=($(compgen -W 'orders check reason explain conflicts bounds dates when allen legacy join lines matrix certify verify convert sample help version' -- "$word")); return; fi
    if [ "$first" = explain ] && [[ $word == P* ]]; then COMPREPLY=($(compgen -W 'P173 P174 P175 P176 P182 P183 P184 P185' -- "$word")); return; fi
    if [[ $word == -* && ' orders check reason explain conflicts bounds dates when allen legacy join lines matrix certify verify convert ' == *" $first "* ]]; then COMPREPLY=(--base); return; fi
    [ "$last" = --base ] || COMPREPLY=($(compgen -f -- "$word"))
}
complete -o filenames -F _crm_cli crm_cli

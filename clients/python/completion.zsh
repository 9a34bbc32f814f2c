#compdef bpfhost-py bpfhost-shards
# Completion of bpfhost-py and bpfhost-shards in zsh, by argcomplete (Debian: python3-argcomplete): the command itself completes its line.
local line="${(j: :)words[1,CURRENT-1]} $PREFIX" said
local -a found folders
said=$(
    IFS=$'\013' COMP_LINE=$line COMP_POINT=${#line} _ARGCOMPLETE=1 _ARGCOMPLETE_SUPPRESS_SPACE=1 \
        ${words[1]} 8>&1 9> /dev/null > /dev/null 2>&1
)
found=("${(@ps:\013:)said}")
if [[ -z $said ]]; then
    _files
else
    # A name goes on after a folder: no space follows it.
    folders=(${(M)found:#*[=/:]})
    compadd -Q -S '' -a folders
    compadd -Q -- ${found:#*[=/:]}
fi

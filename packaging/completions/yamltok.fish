# Words of yamltok, for fish.
complete -c yamltok -f
complete -c yamltok -n __fish_is_first_token -a scan -d 'list all tokens'
complete -c yamltok -n __fish_is_first_token -a calls -d 'list the answers to calls'
complete -c yamltok -n __fish_is_first_token -a follow -d 'list tokens as they come'
complete -c yamltok -n __fish_is_first_token -a decode -d 'say what text the input is'
complete -c yamltok -n __fish_is_first_token -s h -l help -d 'print the words'
complete -c yamltok -n __fish_is_first_token -l version -d 'print the version'
complete -c yamltok -n 'test (count (commandline -opc)) -eq 2' -a 'any utf8 utf16le utf16be' -d encoding

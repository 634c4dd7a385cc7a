# Completion of spark for fish: the command, then Ada sources and folders.
function __spark_sources
    complete -C "'' "(commandline -ct) | string match -r '.*(?:/|\.ad[bs])(?:\t.*)?$'
end
complete -c spark -f
complete -c spark -n __fish_use_subcommand -a check -d 'Check Ada sources as one program'
complete -c spark -n __fish_use_subcommand -a leaks -d 'List places that may lose an object'
complete -c spark -n __fish_use_subcommand -a make -d 'Write an Ada program of a size'
complete -c spark -n __fish_use_subcommand -a run -d 'Run an Ada program'
complete -c spark -n __fish_use_subcommand -a selftest -d 'Make, check and run a program of a size'
complete -c spark -n '__fish_seen_subcommand_from check leaks run' -a '(__spark_sources)'

# fish completion of felosumay-line, made by .ci/completions
complete -c felosumay-line -n 'test (count (commandline -opc)) = 1' -a '(__fish_complete_path)'
complete -c felosumay-line --wraps 'felosumay line --port'

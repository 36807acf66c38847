# Completion of msi for fish: put it in ~/.config/fish/completions. (ci/completions makes it.)
complete -c msi -f
complete -c msi -n __fish_use_subcommand -a play -d 'Reads steps, one a line, and prints what each of them did'
complete -c msi -n '__fish_seen_subcommand_from play' -l caches -d 'How many caches the world has, 1 to 4096' -x
complete -c msi -n '__fish_seen_subcommand_from play' -l blocks -d 'How many blocks the world has, 1 to 65536 [default: 1]' -x
complete -c msi -n '__fish_seen_subcommand_from play' -l protocol -d 'The controllers'\'' protocol, msi or msi+e [default: msi]' -x -a 'msi msi+e'
complete -c msi -n '__fish_seen_subcommand_from play' -l tables -d 'A file of cells, in JSON, in place of the protocol'\''s own' -r -F
complete -c msi -n '__fish_seen_subcommand_from play' -l recording -d 'Prints the recording, and the finding on standard error'
complete -c msi -n '__fish_seen_subcommand_from play' -l explain -d 'Tells on standard error where a text is refused, and why'
complete -c msi -n '__fish_seen_subcommand_from play' -l help -d 'Print help'
complete -c msi -n __fish_use_subcommand -a trial -d 'Reads a scenario, makes one trial of it and prints its recording'
complete -c msi -n '__fish_seen_subcommand_from trial' -l caches -d 'How many caches the world has, 1 to 4096' -x
complete -c msi -n '__fish_seen_subcommand_from trial' -l blocks -d 'How many blocks the world has, 1 to 65536 [default: 1]' -x
complete -c msi -n '__fish_seen_subcommand_from trial' -l protocol -d 'The controllers'\'' protocol, msi or msi+e [default: msi]' -x -a 'msi msi+e'
complete -c msi -n '__fish_seen_subcommand_from trial' -l tables -d 'A file of cells, in JSON, in place of the protocol'\''s own' -r -F
complete -c msi -n '__fish_seen_subcommand_from trial' -l seed -d 'The seed of the dice' -x
complete -c msi -n '__fish_seen_subcommand_from trial' -l number -d 'The trial'\''s number' -x
complete -c msi -n '__fish_seen_subcommand_from trial' -l limit -d 'How many steps a trial may make, at most 1000000' -x
complete -c msi -n '__fish_seen_subcommand_from trial' -l explain -d 'Tells on standard error where a text is refused, and why'
complete -c msi -n '__fish_seen_subcommand_from trial' -l help -d 'Print help'
complete -c msi -n __fish_use_subcommand -a batch -d 'Reads a scenario, makes trials of it and prints their verdicts'
complete -c msi -n '__fish_seen_subcommand_from batch' -l caches -d 'How many caches the world has, 1 to 4096' -x
complete -c msi -n '__fish_seen_subcommand_from batch' -l blocks -d 'How many blocks the world has, 1 to 65536 [default: 1]' -x
complete -c msi -n '__fish_seen_subcommand_from batch' -l protocol -d 'The controllers'\'' protocol, msi or msi+e [default: msi]' -x -a 'msi msi+e'
complete -c msi -n '__fish_seen_subcommand_from batch' -l tables -d 'A file of cells, in JSON, in place of the protocol'\''s own' -r -F
complete -c msi -n '__fish_seen_subcommand_from batch' -l seed -d 'The seed of the dice' -x
complete -c msi -n '__fish_seen_subcommand_from batch' -l trials -d 'How many trials are made, at most 1000000' -x
complete -c msi -n '__fish_seen_subcommand_from batch' -l limit -d 'How many steps a trial may make, at most 1000000' -x
complete -c msi -n '__fish_seen_subcommand_from batch' -l workers -d 'How many threads share the trials, 1 to 64 [default: 1]' -x
complete -c msi -n '__fish_seen_subcommand_from batch' -l until -d 'Ends behind the first such trial: broke, stuck or any' -x -a 'broke stuck any'
complete -c msi -n '__fish_seen_subcommand_from batch' -l progress -d 'Tells on standard error how far the batch is'
complete -c msi -n '__fish_seen_subcommand_from batch' -l json -d 'Prints an object in JSON a line'
complete -c msi -n '__fish_seen_subcommand_from batch' -l explain -d 'Tells on standard error where a text is refused, and why'
complete -c msi -n '__fish_seen_subcommand_from batch' -l help -d 'Print help'
complete -c msi -n __fish_use_subcommand -a replay -d 'Reads a recording, makes its steps again and compares their outcomes'
complete -c msi -n '__fish_seen_subcommand_from replay' -l json -d 'Prints an object in JSON a line'
complete -c msi -n '__fish_seen_subcommand_from replay' -l explain -d 'Tells on standard error where a text is refused, and why'
complete -c msi -n '__fish_seen_subcommand_from replay' -l help -d 'Print help'
complete -c msi -n __fish_use_subcommand -a show -d 'Reads a recording, and prints a table of what each step did'
complete -c msi -n '__fish_seen_subcommand_from show' -l block -d 'Only the steps of this block' -x
complete -c msi -n '__fish_seen_subcommand_from show' -l from -d 'The first entry, counted from 0' -x
complete -c msi -n '__fish_seen_subcommand_from show' -l steps -d 'How many entries from there on' -x
complete -c msi -n '__fish_seen_subcommand_from show' -l tsv -d 'Prints columns with tabs between, behind their names'
complete -c msi -n '__fish_seen_subcommand_from show' -l json -d 'Prints an object in JSON a line'
complete -c msi -n '__fish_seen_subcommand_from show' -l explain -d 'Tells on standard error where a text is refused, and why'
complete -c msi -n '__fish_seen_subcommand_from show' -l help -d 'Print help'
complete -c msi -n __fish_use_subcommand -a chart -d 'Reads a recording, and prints it as a message sequence chart, in SVG'
complete -c msi -n '__fish_seen_subcommand_from chart' -l block -d 'Only the steps of this block' -x
complete -c msi -n '__fish_seen_subcommand_from chart' -l from -d 'The first entry, counted from 0' -x
complete -c msi -n '__fish_seen_subcommand_from chart' -l steps -d 'How many entries from there on' -x
complete -c msi -n '__fish_seen_subcommand_from chart' -l explain -d 'Tells on standard error where a text is refused, and why'
complete -c msi -n '__fish_seen_subcommand_from chart' -l help -d 'Print help'
complete -c msi -n __fish_use_subcommand -a move -d 'Reads a recording of either version, and prints it in version 2'
complete -c msi -n '__fish_seen_subcommand_from move' -l explain -d 'Tells on standard error where a text is refused, and why'
complete -c msi -n '__fish_seen_subcommand_from move' -l help -d 'Print help'
complete -c msi -n __fish_use_subcommand -a floor -d 'Reads asks, one a line, and has threads put them in a race'
complete -c msi -n '__fish_seen_subcommand_from floor' -l caches -d 'How many caches the world has, 1 to 4096' -x
complete -c msi -n '__fish_seen_subcommand_from floor' -l blocks -d 'How many blocks the world has, 1 to 65536 [default: 1]' -x
complete -c msi -n '__fish_seen_subcommand_from floor' -l protocol -d 'The controllers'\'' protocol, msi or msi+e [default: msi]' -x -a 'msi msi+e'
complete -c msi -n '__fish_seen_subcommand_from floor' -l tables -d 'A file of cells, in JSON, in place of the protocol'\''s own' -r -F
complete -c msi -n '__fish_seen_subcommand_from floor' -l seats -d 'How many seats take turns, a thread each, 1 to 64' -x
complete -c msi -n '__fish_seen_subcommand_from floor' -l turns -d 'How many turns each seat tries to make' -x
complete -c msi -n '__fish_seen_subcommand_from floor' -l seed -d 'The seed of the dice' -x
complete -c msi -n '__fish_seen_subcommand_from floor' -l recording -d 'Prints the recording, and the finding on standard error'
complete -c msi -n '__fish_seen_subcommand_from floor' -l explain -d 'Tells on standard error where a text is refused, and why'
complete -c msi -n '__fish_seen_subcommand_from floor' -l help -d 'Print help'
complete -c msi -n __fish_use_subcommand -a tables -d 'Prints the cells of both controller tables, one a line'
complete -c msi -n '__fish_seen_subcommand_from tables' -l protocol -d 'The controllers'\'' protocol, msi or msi+e [default: msi]' -x -a 'msi msi+e'
complete -c msi -n '__fish_seen_subcommand_from tables' -l tables -d 'A file of cells, in JSON, in place of the protocol'\''s own' -r -F
complete -c msi -n '__fish_seen_subcommand_from tables' -l changes -d 'Prints the changed cells alone, in JSON, for --tables'
complete -c msi -n '__fish_seen_subcommand_from tables' -l explain -d 'Tells on standard error where a text is refused, and why'
complete -c msi -n '__fish_seen_subcommand_from tables' -l help -d 'Print help'
complete -c msi -n __fish_use_subcommand -a certify -d 'Says whether tables are proved safe and never stuck, or why not'
complete -c msi -n '__fish_seen_subcommand_from certify' -l protocol -d 'The controllers'\'' protocol, msi or msi+e [default: msi]' -x -a 'msi msi+e'
complete -c msi -n '__fish_seen_subcommand_from certify' -l tables -d 'A file of cells, in JSON, in place of the protocol'\''s own' -r -F
complete -c msi -n '__fish_seen_subcommand_from certify' -l json -d 'Prints an object in JSON a line'
complete -c msi -n '__fish_seen_subcommand_from certify' -l pairs -d 'Prints the pairs of caches too, where they are closed'
complete -c msi -n '__fish_seen_subcommand_from certify' -l explain -d 'Tells on standard error where a text is refused, and why'
complete -c msi -n '__fish_seen_subcommand_from certify' -l help -d 'Print help'
complete -c msi -n __fish_use_subcommand -a model -d 'Prints the tables as a model for rumur, which tries every schedule'
complete -c msi -n '__fish_seen_subcommand_from model' -l caches -d 'How many caches the model'\''s block has, 1 to 8' -x
complete -c msi -n '__fish_seen_subcommand_from model' -l protocol -d 'The controllers'\'' protocol, msi or msi+e [default: msi]' -x -a 'msi msi+e'
complete -c msi -n '__fish_seen_subcommand_from model' -l tables -d 'A file of cells, in JSON, in place of the protocol'\''s own' -r -F
complete -c msi -n '__fish_seen_subcommand_from model' -l explain -d 'Tells on standard error where a text is refused, and why'
complete -c msi -n '__fish_seen_subcommand_from model' -l help -d 'Print help'
complete -c msi -n __fish_use_subcommand -a check -d 'Reads tables and a scenario, and prints what they are'
complete -c msi -n '__fish_seen_subcommand_from check' -l caches -d 'How many caches it is for; else as many as it needs' -x
complete -c msi -n '__fish_seen_subcommand_from check' -l blocks -d 'How many blocks; else 1, or as it needs without --caches' -x
complete -c msi -n '__fish_seen_subcommand_from check' -l protocol -d 'The controllers'\'' protocol, msi or msi+e [default: msi]' -x -a 'msi msi+e'
complete -c msi -n '__fish_seen_subcommand_from check' -l tables -d 'A file of cells, in JSON, in place of the protocol'\''s own' -r -F
complete -c msi -n '__fish_seen_subcommand_from check' -l explain -d 'Tells on standard error where a text is refused, and why'
complete -c msi -n '__fish_seen_subcommand_from check' -l help -d 'Print help'

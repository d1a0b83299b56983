# Completions of f77run for fish.

complete -c f77run -l workers -x -d 'Threads that run one loop, 1 to 64'
complete -c f77run -l block -x -d 'Iterations of a block, 1 to 1000000'
complete -c f77run -l window -x -d 'Blocks that are tried at a time, 1 to 256'
complete -c f77run -l turns -x -d 'Turns that the program has, 1 to 1000000000000'
complete -c f77run -l speculate -x -a 'adaptive always never' -d 'Loops that are tried in parallel'
complete -c f77run -l check -d 'Check the source and run nothing'
complete -c f77run -l count -d 'Report the turns that were used'
complete -c f77run -l explain -d 'Explain a refusal or a fault'
complete -c f77run -l stages -d 'Report what became of the loops'
complete -c f77run -l rule -x -a 'C1 C2 C3 C4 C5 C6 C7 G1 G2 G3 N1 N2 N3 N4 N5 K1 K2 K3 K4 K5 K6 K7 K8 K9 K10 K11 K12 K13 F1 F2 F3 F4 F5 F6 F7 F8' -d 'Show a rule or a fault'
complete -c f77run -s h -l help -d 'Show the help'
complete -c f77run -s V -l version -d 'Show the version'

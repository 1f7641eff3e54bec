from rdfdelta.commands import main

main(prog_name="rdfd")

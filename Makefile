# make demo     builds the program `learn`, runs it on sample votes and shows what each answer means
# make test     holds the pages for reviewers to the repository, runs `rt ci` (which proves every crate, tries the edits of must-fail/ and runs each
#               program), tries the other wrong programs, compares each role with a model in Rust, runs a simulated cluster, and tests the library from C
# make lib      builds the library that C hosts link, and says its size
# make example  builds a whole host in C, four sites of which one lies, and runs it
# make fuzz     calls the library with random bytes for some minutes
# make bench    times the frame reader and writer, `learn` and each role's calls beside plain C
library = crates/speckleewe/out/libspeckleewe.a

demo:
	@demo/run.sh

test:
	@tests/run.sh

lib:
	@tools/library.sh speckleewe
	@echo "$(library): $$(wc -c <$(library)) bytes"

example: lib
	@examples/run.sh $(library)

fuzz: lib
	@tests/fuzz/run.sh $(library) 5000000 new

bench:
	@bench/run.sh

.PHONY: demo test lib example fuzz bench

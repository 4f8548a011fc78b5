fn run(n) {}
// run twice
run

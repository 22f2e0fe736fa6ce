use io

main(args: int[][]) {
    while !eof() println(readln())
}

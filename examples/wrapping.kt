fun main() {
    // An Int has 32 bits: what doesn't fit is left out.
    println(2147483647 + 1)
    println(65536 * 65536)
    println(0 - 2147483647 - 2)
}

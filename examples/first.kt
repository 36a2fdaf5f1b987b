fun main() {
    println(2 + 3 * 4)
}

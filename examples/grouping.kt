fun main() {
    /* Chains group to the left, a product binds tighter than a sum,
       /* and comments nest. */ */
    println(10 - 4 - 3); println(10 - (4 - 3))
    println(
        2 * (3 + 4)
        * 5
    )
}

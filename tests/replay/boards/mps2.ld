/* ARM's MPS2 boards, as qemu has them. */
MEMORY
{
    CODE (rx) : ORIGIN = 0x00000000, LENGTH = 4M
    DATA (rw) : ORIGIN = 0x21000000, LENGTH = 16M
}
INCLUDE sections.ld

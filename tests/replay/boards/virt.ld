/* qemu's virtual RISC-V board. */
MEMORY
{
    CODE (rx) : ORIGIN = 0x80000000, LENGTH = 4M
    DATA (rw) : ORIGIN = 0x80400000, LENGTH = 16M
}
INCLUDE sections.ld

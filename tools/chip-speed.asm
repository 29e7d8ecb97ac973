; The loop of crates/chip_speed, for gpasm (gputils). To time it in gpsim:
;   gpasm tools/chip-speed.asm -o loop.hex
;   gpsim -i, and then: processor p16f877, load loop.hex, break c 200000000, run
        list p=16f877
        include <p16f877.inc>
        __CONFIG 0x3F3A
        org 0
        movlw 0x40
        movwf FSR
loop    movlw 0x35
        addwf 0x20,f
        incf 0x21,f
        btfss 0x21,0
        rlf 0x22,f
        xorwf 0x20,w
        decfsz 0x23,f
        call sub
        bsf STATUS,RP0
        movwf 0xA0
        bcf STATUS,RP0
        addwf INDF,f
        movwf PORTB
        goto loop
sub     return
        end

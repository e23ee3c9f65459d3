          IDENT   DEVICES
          ABS
          ORG     100B
*
*         A TABLE OF THE DEVICES OF A MACHINE, AND A ROUTINE OF THE
*         CENTRAL PROCESSOR THAT LOOKS A DEVICE UP IN IT.
*
*         THE TABLE STANDS IN BLOCK TABLE, AND THE NAMES OF THE DEVICES
*         IN BLOCK NAMES. IN MEMORY THESE TWO COME BEHIND THE PROGRAM
*         AND ITS LITERALS, THOUGH HERE THEY ARE WRITTEN FIRST.
*
*         AN ENTRY OF THE TABLE IS ONE WORD.
*
*         12      CHANNEL
*         6       UNIT
*         24      ZERO
*         18      ADDRESS OF THE NAME, WHICH ENDS WITH A ZERO BYTE
*
DEVICE    MACRO   TAG,CHANNEL,UNIT,NAME
          USE     NAMES
TAG       DIS     ,*NAME*
          USE     *
          VFD     12/CHANNEL,6/UNIT,24/0,18/TAG
          ENDM
*
          USE     TABLE
FIRST     DEVICE  MT1,13B,1,TAPE
          DEVICE  MT2,13B,2,TAPE
          DEVICE  CR,12B,0,(CARD READER)
          DEVICE  LP,12B,1,(LINE PRINTER)
COUNT     EQU     *-FIRST
          USE     0
*
*         THE MAIN PROGRAM LOOKS UP UNIT 0 OF CHANNEL 12B, AND STOPS
*         WITH THE FIRST WORD OF ITS NAME IN X5.
*
START     SB1     1                        (B1) = 1 THROUGHOUT
          SX1     12B*100B+0
          RJ      FIND
          SA5     =9LNO DEVICE
          ZR      X6,STOP
          SA5     X6
STOP      PS
*
*         FIND    LOOKS A DEVICE UP.
*
*         ENTRY   (X1) = CHANNEL*100B + UNIT
*         EXIT    (X6) = ADDRESS OF THE NAME, 0 IF THERE IS NO DEVICE
*         USES    A2, B2, B3, X2, X3, X6
*
FIND      PS                               ENTRY AND EXIT
          SB2     FIRST
          SB3     FIRST+COUNT
          MX6     0
NEXT      EQ      B2,B3,FIND               RETURN IF NO ENTRY IS LEFT
          SA2     B2
          SB2     B2+B1
          BX3     X2
          AX3     42                       (X3) = CHANNEL AND UNIT
          IX3     X3-X1
          NZ      X3,NEXT
          SX6     X2                       THE LOW 18 BITS OF THE ENTRY
          EQ      FIND
*
*         A HEADING FOR A LIST OF THE DEVICES, AND ROOM FOR A LINE.
*
HEADING   DIS     3,DEVICES OF THIS MACHINE
BUFFER    BSS     8
          END

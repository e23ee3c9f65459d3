          IDENT   SUM
          ABS
          ORG     100B
*
*         A PROGRAM OF THE CENTRAL PROCESSOR. IT ADDS UP TWO TABLES
*         AND STOPS WITH THE SUMS IN SUM1 AND SUM2. WHERE THE FIRST
*         SUM IS NOT 60 IT STOPS WITH A MESSAGE IN X5.
*
*         PLUS    ADDS INTEGERS, (XI) = (XJ) + (XK).
*
PLUS      MACRO   I,J,K
          IX_I     X_J+X_K
          ENDM
*
*         TOTAL   PUTS THE SUM OF A TABLE INTO A WORD OF MEMORY.
*
TOTAL     MACRO   TABLE,LENGTH,WORD
          SB2     TABLE
          SB3     LENGTH
          RJ      SUM
          SA6     WORD
          ENDM
*
*         THE MAIN PROGRAM.
*
START     SB1     1                        (B1) = 1 THROUGHOUT
          TOTAL   TENS,TENSL,SUM1
          TOTAL   OTHERS,OTHERSL,SUM2
          SA1     SUM1
          SA2     =60                      A LITERAL, A NUMBER
          IX3     X1-X2
          NZ      X3,BAD
          PS                               STOP
BAD       SA5     =8LBAD SUM.              A LITERAL, CHARACTERS
          PS
*
*         SUM     ADDS UP A TABLE.
*
*         ENTRY   (B2) = ADDRESS OF ITS FIRST WORD
*                 (B3) = NUMBER OF ITS WORDS
*         EXIT    (X6) = THE SUM
*         USES    A4, B2, B3, X4, X6
*
SUM       PS                               ENTRY AND EXIT
          MX6     0                        (X6) = 0
LOOP      ZR      B3,SUM                   RETURN IF NO WORD IS LEFT
          SA4     B2                       (X4) = THE NEXT WORD
          SB2     B2+B1
          SB3     B3-B1
          PLUS    6,6,4
          EQ      LOOP
*
*         THE TABLES.
*
TENS      DATA    10,20,30
TENSL     EQU     *-TENS
OTHERS    DATA    1000000,-1,777B,0
OTHERSL   EQU     *-OTHERS
SUM1      BSS     1
SUM2      BSS     1
          END

          IDENT   FLAGS
*
*         A LINE FOR EACH FLAG. THE LETTER OF THE FLAG STANDS IN COLUMN
*         44, AND BEHIND IT WHAT IS WRONG. THE OTHER LINES ARE RIGHT.
*
TWO       EQU     2
          SA1     X2*2                     A, NO SUCH OPERAND
TWO       EQU     3                        D, TWO HAS A VALUE ALREADY
          ENDIF                            E, NO RANGE IS OPEN
X1        EQU     4                        L, A REGISTER IS NO SYMBOL
          FORTRAN                          O, NO OPERATION AND NO MACRO
          SB1     1000000B                 T, 18 BITS DO NOT HOLD IT
          SA1     NOWHERE                  U, NO LINE DEFINES IT
          VFD     61/0                     V, NO SUCH WIDTH
          CON     TWO
          END
          CON     1                        E, BEHIND THE END

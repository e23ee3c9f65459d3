DEBUG     EQU    0
          DUP    3,1
          NO
          IFEQ   DEBUG,1
          SX1    1
          ELSE
          SX1    2
          ENDIF
          SA2    =100
          PS
          END

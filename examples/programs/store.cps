STORE     MACRO  I,VALUE,WHERE
          SX_I   VALUE
          SA_I   WHERE
          ENDM
          STORE  6,1000B,FIRST
          STORE  7,-1,FIRST+1
          PS
FIRST     BSS    2
          END

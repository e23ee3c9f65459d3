CLEAR     MACRO  FIRST,COUNT
          LOCAL  LOOP
          MX6    0
          SB1    COUNT
LOOP      SB1    B1-1
          SA6    B1+FIRST
          NE     B1,LOOP
          ENDM
          CLEAR  TABLE,10
          CLEAR  NAMES,5
          PS
TABLE     BSS    10
NAMES     BSS    5
          END

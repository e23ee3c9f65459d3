          CON    1,-1,TEXT
TEXT      DIS    ,*HELLO, WORLD*
          DATA   3LABC,100
          VFD    12/1,18/TEXT,30/0
          BSSZ   2
          END

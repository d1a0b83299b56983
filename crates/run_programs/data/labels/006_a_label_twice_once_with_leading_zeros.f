   10 I=1
      J=2
00010 CONTINUE
      END

      I=1
      GO TO 10
      I=3
   10 J=I+1
      WRITE (6,20) I,J
   20 FORMAT (2I3)
      END

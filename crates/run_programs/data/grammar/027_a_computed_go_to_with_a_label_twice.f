      I=1
      GO TO (10,10) I
   10 CONTINUE
      END

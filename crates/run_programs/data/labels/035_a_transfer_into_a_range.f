      GO TO 10
      DO 10 I=1,3
   10 J=J+1
      END

      I=1
   10 IF (I.LT.3) THEN
      I=I+2147483646
      GO TO 10
      END IF
      I=I+1
      END

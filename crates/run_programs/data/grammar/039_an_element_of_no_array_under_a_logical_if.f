      I=1
      IF(I.EQ.1)IF(2)=3
   10 CONTINUE
      END

      DO 10 WHILE (K1.LT.1)
      K1=1
      DO 10 I1=1,2
      DO 10 WHILE (K2.LT.1)
      K2=1
      DO 10 I2=1,1
      DO 10 WHILE (K3.LT.1)
      K3=1
      DO 10 I3=1,1
      DO 10 WHILE (K4.LT.1)
      K4=1
      DO 10 I4=1,1
      DO 10 WHILE (K5.LT.1)
      K5=1
      DO 10 I5=1,1
      DO 10 WHILE (K6.LT.1)
      K6=1
      DO 10 I6=1,1
      DO 10 WHILE (K7.LT.1)
      K7=1
      DO 10 I7=1,1
      DO 10 WHILE (K8.LT.1)
      K8=1
      DO 10 I8=1,1
      DO 10 WHILE (K9.LT.1)
      K9=1
      DO 10 I9=1,1
      DO 10 WHILE (K10.LT.1)
      K10=1
      DO 10 I10=1,1
      DO 10 WHILE (K11.LT.1)
      K11=1
      DO 10 I11=1,1
      DO 10 WHILE (K12.LT.1)
      K12=1
      DO 10 I12=1,1
      DO 10 WHILE (K13.LT.1)
      K13=1
      DO 10 I13=1,1
      DO 10 WHILE (K14.LT.1)
      K14=1
      DO 10 I14=1,1
      DO 10 WHILE (K15.LT.1)
      K15=1
      DO 10 I15=1,1
      DO 10 WHILE (K16.LT.1)
      K16=1
      DO 10 I16=1,2
   10 N=N+1
      WRITE (6,20) I1,I16,K16,N
   20 FORMAT (4I4)
      END

      DO WHILE (I1.LT.2)
      I1=I1+1
      I2=0
      DO WHILE (I2.LT.1)
      I2=I2+1
      I3=0
      DO WHILE (I3.LT.1)
      I3=I3+1
      I4=0
      DO WHILE (I4.LT.1)
      I4=I4+1
      I5=0
      DO WHILE (I5.LT.1)
      I5=I5+1
      I6=0
      DO WHILE (I6.LT.1)
      I6=I6+1
      I7=0
      DO WHILE (I7.LT.1)
      I7=I7+1
      I8=0
      DO WHILE (I8.LT.1)
      I8=I8+1
      I9=0
      DO WHILE (I9.LT.2)
      I9=I9+1
      I10=0
      DO WHILE (I10.LT.1)
      I10=I10+1
      I11=0
      DO WHILE (I11.LT.1)
      I11=I11+1
      I12=0
      DO WHILE (I12.LT.1)
      I12=I12+1
      I13=0
      DO WHILE (I13.LT.1)
      I13=I13+1
      I14=0
      DO WHILE (I14.LT.1)
      I14=I14+1
      I15=0
      DO WHILE (I15.LT.1)
      I15=I15+1
      I16=0
      DO WHILE (I16.LT.1)
      I16=I16+1
      I17=0
      DO WHILE (I17.LT.2)
      I17=I17+1
      I18=0
      DO WHILE (I18.LT.1)
      I18=I18+1
      I19=0
      DO WHILE (I19.LT.1)
      I19=I19+1
      I20=0
      DO WHILE (I20.LT.1)
      I20=I20+1
      I21=0
      DO WHILE (I21.LT.1)
      I21=I21+1
      I22=0
      DO WHILE (I22.LT.1)
      I22=I22+1
      I23=0
      DO WHILE (I23.LT.1)
      I23=I23+1
      I24=0
      DO WHILE (I24.LT.1)
      I24=I24+1
      I25=0
      DO WHILE (I25.LT.1)
      I25=I25+1
      I26=0
      DO WHILE (I26.LT.1)
      I26=I26+1
      I27=0
      DO WHILE (I27.LT.1)
      I27=I27+1
      I28=0
      DO WHILE (I28.LT.1)
      I28=I28+1
      I29=0
      DO WHILE (I29.LT.1)
      I29=I29+1
      I30=0
      DO WHILE (I30.LT.1)
      I30=I30+1
      I31=0
      DO WHILE (I31.LT.1)
      I31=I31+1
      I32=0
      DO WHILE (I32.LT.2)
      I32=I32+1
      K=K+1
      END DO
      END DO
      END DO
      END DO
      END DO
      END DO
      END DO
      END DO
      END DO
      END DO
      END DO
      END DO
      END DO
      END DO
      END DO
      END DO
      END DO
      END DO
      END DO
      END DO
      END DO
      END DO
      END DO
      END DO
      END DO
      END DO
      END DO
      END DO
      END DO
      END DO
      END DO
      END DO
      WRITE (6,10) I1,I2,I32,K
   10 FORMAT (4I4)
      END

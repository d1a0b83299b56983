C     THE DATE OF EASTER SUNDAY IN THE YEARS 2020 TO 2031, BY DIVISIONS
C     ALONE (MEEUS, JONES AND BUTCHER).
      INTEGER A,B,C,D,E,F,G,H,Y
      WRITE (6,10)
      DO 20 Y=2020,2031
      A=Y-Y/19*19
      B=Y/100
      C=Y-B*100
      D=B/4
      E=B-D*4
      F=(B+8)/25
      G=(B-F+1)/3
      H=19*A+B-D-G+15
      H=H-H/30*30
      I=C/4
      K=C-I*4
      L=32+2*E+2*I-H-K
      L=L-L/7*7
      M=(A+11*H+22*L)/451
      N=H+L-7*M+114
   20 WRITE (6,30) Y,N/31,N-N/31*31+1
   10 FORMAT ('EASTER SUNDAY')
   30 FORMAT (I4,2('-',I2.2))
      END

      DO I1=1,2
      IF (K.GE.0) THEN
      DO I3=1,1
      IF (K.GE.0) THEN
      DO I5=1,1
      IF (K.GE.0) THEN
      DO I7=1,1
      IF (K.GE.0) THEN
      DO I9=1,1
      IF (K.GE.0) THEN
      DO I11=1,1
      IF (K.GE.0) THEN
      DO I13=1,1
      IF (K.GE.0) THEN
      DO I15=1,1
      IF (K.GE.0) THEN
      DO I17=1,2
      IF (K.GE.0) THEN
      DO I19=1,1
      IF (K.GE.0) THEN
      DO I21=1,1
      IF (K.GE.0) THEN
      DO I23=1,1
      IF (K.GE.0) THEN
      DO I25=1,1
      IF (K.GE.0) THEN
      DO I27=1,1
      IF (K.GE.0) THEN
      DO I29=1,1
      IF (K.GE.0) THEN
      DO I31=1,2
      IF (K.GE.0) THEN
      K=K+1
      END IF
      END DO
      END IF
      END DO
      END IF
      END DO
      END IF
      END DO
      END IF
      END DO
      END IF
      END DO
      END IF
      END DO
      END IF
      END DO
      END IF
      END DO
      END IF
      END DO
      END IF
      END DO
      END IF
      END DO
      END IF
      END DO
      END IF
      END DO
      END IF
      END DO
      END IF
      END DO
      WRITE (6,20) K
   20 FORMAT (I3)
      END

/* Measures in C what fsync and fdatasync cost, after a write of 4 KiB each, on a file whose length stays the same and on
   one that grows. It prints the microseconds of a call (docs/PERFORMANCE.md). The scratch file is in the current folder, and
   is removed. The argument is the number of calls.

       gcc -O2 -o sync_calls measure/sync_calls.c && ./sync_calls 100
*/
#define _GNU_SOURCE
#include <fcntl.h>
#include <stdio.h>
#include <stdlib.h>
#include <time.h>
#include <unistd.h>
static double now(void){struct timespec t;clock_gettime(CLOCK_MONOTONIC,&t);return t.tv_sec*1e6+t.tv_nsec/1e3;}
int main(int argc,char**argv){
  long c=argc>1?atol(argv[1]):64; size_t n=4096; char*b=malloc(n);
  int fd=open("syncs_c.scratch",O_RDWR|O_CREAT|O_TRUNC,0666); if(fd<0)return 1;
  for(size_t i=0;i<n;i++)b[i]=7;
  for(long i=0;i<256;i++)if(pwrite(fd,b,n,i*n)!=(ssize_t)n)return 2;
  for(int grow=0;grow<2;grow++)for(int d=0;d<2;d++){
    if(ftruncate(fd,256*n)||fsync(fd))return 4;
    double a=now();
    for(long i=0;i<c;i++){
      off_t p=grow?(256+i)*(off_t)n:(i%256)*(off_t)n;
      if(pwrite(fd,b,n,p)!=(ssize_t)n)return 2;
      if(d?fdatasync(fd):fsync(fd))return 3;
    }
    printf("%s %s %.0f\n",grow?"grow":"over",d?"fdatasync":"fsync",(now()-a)/c);
  }
  close(fd);unlink("syncs_c.scratch");return 0;}
